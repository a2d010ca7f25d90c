//! What is looked for before the lines: sizes, the list's length, its entries.

use super::Outcome;
use crate::harness::listing::compare::ListingComparer;
use crate::random::Random;
use crate::simulator::listing::method::{by_method, listing};
use crate::simulator::listing::request::ListingRequest;

pub fn cases(comparer: &mut ListingComparer, random: &mut Random) -> Outcome {
    for (n, m) in [
        (1, 1),
        (2, 1),
        (1, 2),
        (2, 2),
        (3, 2),
        (8, 8),
        (64, 1),
        (1, 64),
    ] {
        let list = random.permutation(n * m);
        let good = listing(&by_method(n, m, &list));
        let texts = [&good[..], "", "x\n", "0 E 0\n0 E 0\n", "0 W 1 0 0\n"];
        for text in texts {
            let request = ListingRequest::new(n, m, &list, text);
            comparer.compare(&request)?;
            flawed(comparer, &request)?;
        }
    }
    every_size(comparer)
}

type Flaw = Box<dyn Fn(&mut ListingRequest)>;

/// Each flaw alone, and each pair.
fn flawed(comparer: &mut ListingComparer, request: &ListingRequest) -> Outcome {
    let flaws = flaws(request);
    for (index, first) in flaws.iter().enumerate() {
        let mut once = request.clone();
        first(&mut once);
        comparer.compare(&once)?;
        for second in &flaws[index + 1..] {
            let mut twice = once.clone();
            second(&mut twice);
            comparer.compare(&twice)?;
        }
    }
    Ok(())
}

fn flaws(request: &ListingRequest) -> Vec<Flaw> {
    let last = request.list.len() - 2;
    let originals = request.originals() as u16;
    let entry = move |at: usize, entry: u16| -> Flaw {
        Box::new(move |request| {
            if let Some(bytes) = request.list.get_mut(at..at + 2) {
                bytes.copy_from_slice(&entry.to_le_bytes());
            }
        })
    };
    let mut flaws: Vec<Flaw> = vec![
        entry(0, originals),
        entry(last, originals),
        entry(0, 65535),
        entry(last, 65535),
        entry(0, 256),
        Box::new(|request| request.list.fill(255)),
        Box::new(|request| {
            // Met twice, unless there is but one.
            let first = [request.list[0], request.list[1]];
            let at = request.list.len() - 2;
            request.list[at..].copy_from_slice(&first);
        }),
    ];
    for wrong in [0, 65, u32::MAX] {
        flaws.push(Box::new(move |request| request.n = wrong));
        flaws.push(Box::new(move |request| request.m = wrong));
    }
    flaws.push(Box::new(|request| request.list.push(0)));
    flaws.push(Box::new(|request| {
        request.list.pop();
    }));
    flaws.push(Box::new(|request| request.list.extend([0, 0])));
    flaws.push(Box::new(|request| request.list.clear()));
    flaws
}

/// Every n and m up to 66: above 64 pages all are refused.
fn every_size(comparer: &mut ListingComparer) -> Outcome {
    for n in 0..=66 {
        for m in 0..=66 {
            let list: Vec<u16> = (0..(n * m).min(70) as u16).collect();
            comparer.compare(&ListingRequest::new(n, m, &list, "end 0 0\n"))?;
        }
    }
    // The product of these is small in 32 bits.
    for (n, m) in [(65536, 65536), (1 << 31, 2), (2, 1 << 31), (65537, 65535)] {
        comparer.compare(&ListingRequest::new(n, m, &[0], "end 0 0\n"))?;
    }
    Ok(())
}
