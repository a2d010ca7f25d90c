//! Makes a failing request plainer, as long as it still fails.
//!
//! The families go from small sizes to big ones, so the sizes stay.

use super::compare::{difference, Difference};
use super::drive::drive;
use super::interface::Calls;
use crate::simulator::calls::answer;
use crate::simulator::request::Request;

pub fn shrink(calls: &Calls, request: Request, what: String) -> Difference {
    let mut found = Difference { request, what };
    while let Some(plainer) = plainer_failure(calls, &found.request) {
        found = plainer;
    }
    found
}

fn plainer_failure(calls: &Calls, request: &Request) -> Option<Difference> {
    let failing = |request: Request| {
        let what = difference(drive(calls, &request), &answer(&request))?;
        Some(Difference { request, what })
    };
    plainer(request).into_iter().find_map(failing)
}

/// Requests with a smaller budget, a smaller original, or more zero bytes.
fn plainer(request: &Request) -> Vec<Request> {
    let mut tries = vec![];
    for budget in [0, 1, request.budget / 2] {
        if budget < request.budget {
            tries.push(Request {
                budget,
                ..request.clone()
            });
        }
    }
    if request.original > 0 {
        tries.push(Request {
            original: request.original / 2,
            ..request.clone()
        });
    }
    if request.slot > 0 {
        tries.push(Request {
            slot: request.slot / 2,
            ..request.clone()
        });
    }
    tries.extend(zeroed(request));
    tries
}

fn zeroed(request: &Request) -> Vec<Request> {
    let mut tries = vec![request.clone(); 4];
    tries[0].parts.store.fill(0);
    // Unwritten bytes must often stay 255 for the call to be carried out.
    for byte in tries[1].parts.store.iter_mut().filter(|byte| **byte != 255) {
        *byte = 0;
    }
    tries[2].parts.pins.fill(0);
    tries[3].parts.wear.fill(0);
    tries.retain(|plainer| plainer != request);
    tries
}
