//! One HEX request through the C interface.

use crate::harness::interface::HexCalls;
use crate::harness::lent::Lent;
use crate::simulator::hex::request::{HexAnswer, HexCall, HexParts, HexRequest};

/// The mover's answer, or what it damaged.
pub fn drive(calls: &HexCalls, request: &HexRequest) -> Result<HexAnswer, String> {
    let parts = &request.parts;
    // A last line that is not ended would be, one byte further on.
    let mut text = Lent::within(&parts.text, b'\n');
    let mut store = Lent::new(&parts.store);
    let mut marks = Lent::new(&parts.marks);
    let sizes = &request.sizes;
    // All parts are live buffers of the lengths given.
    let returned = unsafe {
        match request.call {
            HexCall::Read => (calls.read)(
                sizes.n,
                sizes.m,
                sizes.page_bytes,
                text.pointer(),
                text.length(),
                store.pointer(),
                store.length(),
                marks.pointer(),
                marks.length(),
            ),
            HexCall::Write => (calls.write)(
                sizes.n,
                sizes.m,
                sizes.page_bytes,
                store.pointer(),
                store.length(),
                marks.pointer(),
                marks.length(),
                text.pointer(),
                text.length(),
            ),
        }
    };
    let parts = HexParts {
        text: text.take("text")?,
        store: store.take("store")?,
        marks: marks.take("marks")?,
    };
    Ok(HexAnswer { returned, parts })
}
