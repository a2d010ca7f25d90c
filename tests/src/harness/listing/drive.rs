//! One listing through the C interface.

use crate::harness::interface::ListingCall;
use crate::harness::lent::{Lent, Outs};
use crate::simulator::listing::request::{ListingAnswer, ListingRequest};

/// The answer, or what the call damaged.
pub fn drive(call: ListingCall, request: &ListingRequest) -> Result<ListingAnswer, String> {
    let mut list = Lent::new(&request.list);
    // A last line that is not ended would be, one byte further on.
    let mut text = Lent::within(&request.text, b'\n');
    let mut outs = Outs::junk();
    let [line, accepted, ..] = outs.pointers();
    // Both parts are live buffers of the lengths given.
    let returned = unsafe {
        call(
            request.n,
            request.m,
            list.pointer(),
            list.length(),
            text.pointer(),
            text.length(),
            line,
            accepted,
        )
    };
    let [line, accepted, ..] = outs.take()?;
    if list.take("list")? != request.list || text.take("text")? != request.text {
        return Err("a lent byte was changed".into());
    }
    Ok(ListingAnswer {
        returned,
        line,
        accepted,
    })
}
