//! The refusals, and the order in which each call looks for them.

use super::dropping::completed;
use super::flash::Flash;
use super::request::{Call, Part, Request};
use super::rules::Rules;
use super::running::place_fits;
use super::sizes::Sizes;
use super::split::is_split;
use super::wear::{worn_out, WEAR_BYTES};

#[derive(Clone, Copy, Debug, PartialEq)]
pub enum Refusal {
    Sizes = 1,
    Lengths = 2,
    List = 3,
    Split = 4,
    Place = 5,
    Marks = 6,
    Original = 7,
    Pinned = 11,
    Worn = 12,
}

/// The column "given by" of the table, lowest number first, but for 11, which
/// comes between 3 and 4, and 12, which comes after 5.
pub fn order(call: Call) -> &'static [Refusal] {
    use Refusal::*;
    match call {
        Call::Split => &[Sizes, Lengths, List, Pinned],
        Call::Run => &[Sizes, Lengths, List, Pinned, Split, Place, Worn],
        Call::Mend => &[Sizes, Lengths, Marks],
        Call::Read => &[Sizes, Lengths, List, Pinned, Split, Marks, Original],
        Call::Refresh => &[Lengths],
        Call::Rebuild => order(Call::Read),
    }
}

pub fn refusal<R: Rules>(request: &Request) -> Option<Refusal> {
    let mut order = R::refusal_order(request.call).iter().copied();
    order.find(|&refusal| applies::<R>(refusal, request))
}

fn applies<R: Rules>(refusal: Refusal, request: &Request) -> bool {
    let sizes = request.sizes;
    let flash = || Flash::new(sizes, &request.parts.store, &request.parts.marks);
    match refusal {
        Refusal::Sizes => !R::sizes_fit(&sizes),
        Refusal::Lengths => !lengths_fit::<R>(request),
        Refusal::List => !list_fits::<R>(request),
        Refusal::Split => !split_fits::<R>(request),
        Refusal::Place => !place_fits::<R>(&flash(), request.place as usize),
        Refusal::Marks => R::recovery(&flash()).is_none(),
        Refusal::Original => !R::number_fits(request),
        Refusal::Pinned => R::moves_pinned(request),
        Refusal::Worn => worn_out::<R>(request),
    }
}

fn lengths_fit<R: Rules>(request: &Request) -> bool {
    let mut parts = request.call.parts().iter();
    parts.all(|&part| {
        R::length_fits(
            part,
            request.parts.get(part).len(),
            due_length(&request.sizes, part),
        )
    })
}

/// Wide enough for sizes out of range too.
fn due_length(sizes: &Sizes, part: Part) -> u128 {
    let [n, m, bytes] = [sizes.n, sizes.m, sizes.page_bytes].map(u128::from);
    match part {
        Part::List => 2 * n * m,
        Part::Pins | Part::Sets => n * m,
        Part::Store => (n + 1) * m * bytes,
        Part::Marks => (n + 1) * m,
        Part::Work => bytes,
        Part::Wear => WEAR_BYTES as u128,
        Part::Area => n * m * bytes,
        Part::Flags => n * m,
    }
}

/// A list that drops a page is none for the call that rebuilds.
fn list_fits<R: Rules>(request: &Request) -> bool {
    let entries = request.entries();
    let drops = || entries.iter().any(|&entry| R::is_dropped(entry));
    R::list_fits(&entries) && (R::takes_drops(request.call) || !drops())
}

/// The set bytes have to be a split of the completed list.
fn split_fits<R: Rules>(request: &Request) -> bool {
    let destinations = completed::<R>(&request.entries());
    is_split(&request.sizes, &destinations, &request.parts.sets)
}
