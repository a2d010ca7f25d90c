//! The families of lists and orders.

use super::compare::OrderComparer;
use crate::checks::papers::{EIGHT, FOURTEEN, TWENTY_ONE};
use crate::random::{all_permutations, all_with_drops, Random};
use crate::simulator::dropping::DROPPED;
use crate::simulator::orders::request::{OrderRequest, Question, QUESTIONS};

pub type Outcome = Result<(), String>;

pub struct Family {
    pub name: &'static str,
    pub cases: fn(&mut OrderComparer, &mut Random) -> Outcome,
}

pub static FAMILIES: [Family; 5] = [
    Family {
        name: "orders: refusals, one and two at once",
        cases: refusals,
    },
    Family {
        name: "orders: every list of three blocks",
        cases: every_list,
    },
    Family {
        name: "orders: the papers' lists",
        cases: papers,
    },
    Family {
        name: "orders: random lists and orders",
        cases: random_lists,
    },
    Family {
        name: "orders: random lists searched",
        cases: searched,
    },
];

/// Blocks 1 to n in turn.
fn own_order(n: usize) -> Vec<u8> {
    (1..=n as u8).collect()
}

fn any_order(n: usize, random: &mut Random) -> Vec<u8> {
    let order = random.permutation(n).into_iter();
    order.map(|index| index as u8 + 1).collect()
}

type Flaw = Box<dyn Fn(&mut OrderRequest)>;

/// The request as it is, with each flaw, and with each pair of flaws.
fn refusals(comparer: &mut OrderComparer, random: &mut Random) -> Outcome {
    for (n, m) in [
        (3, 1),
        (3, 2),
        (4, 1),
        (7, 3),
        (2, 2),
        (1, 1),
        (8, 1),
        (64, 1),
        (3, 64),
    ] {
        let lists = [random.permutation(n * m), random.permutation(n * m)];
        let [kept, other] = lists;
        for list in [kept, random.with_drops(other)] {
            for question in QUESTIONS {
                let order = any_order(n, random);
                let request = OrderRequest::new(question, n, m, &list, &order);
                flawed(comparer, &request)?;
            }
        }
    }
    every_size(comparer)
}

fn flawed(comparer: &mut OrderComparer, request: &OrderRequest) -> Outcome {
    comparer.compare(request)?;
    let flaws = flaws(request);
    for (index, first) in flaws.iter().enumerate() {
        let mut once = request.clone();
        first(&mut once);
        comparer.compare(&once)?;
        for second in &flaws[index + 1..] {
            let mut twice = once.clone();
            second(&mut twice);
            comparer.compare(&twice)?;
        }
    }
    Ok(())
}

/// Lengths come last, so that a flaw inside a part finds it at its length.
fn flaws(request: &OrderRequest) -> Vec<Flaw> {
    let originals = request.list.len() / 2;
    let last = originals - 1;
    let entry = |at: usize, entry: usize| -> Flaw {
        Box::new(move |request| {
            request.list[2 * at..2 * at + 2].copy_from_slice(&(entry as u16).to_le_bytes())
        })
    };
    let block = |at: usize, block: u8| -> Flaw {
        Box::new(move |request| {
            let at = at.min(request.order.len() - 1);
            request.order[at] = block;
        })
    };
    let n = request.n as u8;
    let mut flaws: Vec<Flaw> = vec![
        entry(0, originals),
        entry(last, originals),
        entry(0, 65534),
        // No flaw, or an entry met twice that is none.
        entry(0, DROPPED),
        entry(last, DROPPED),
        entry(last, request.entries()[0]),
        Box::new(|request| request.list.fill(255)),
        // No flaws for the search.
        block(0, 0),
        block(0, n + 1),
        block(usize::MAX, 255),
        block(1, request.order[0]),
        Box::new(|request| request.order.fill(1)),
    ];
    for wrong in [0, 1, 2, 8, 65, u32::MAX] {
        flaws.push(Box::new(move |request| request.n = wrong));
    }
    for wrong in [0, 65, u32::MAX] {
        flaws.push(Box::new(move |request| request.m = wrong));
    }
    for part in [0, 1] {
        let lent = move |request: &mut OrderRequest, change: fn(&mut Vec<u8>)| match part {
            0 => change(&mut request.list),
            _ => change(&mut request.order),
        };
        let changes: [fn(&mut Vec<u8>); 4] = [
            |bytes| bytes.push(1),
            |bytes| {
                bytes.pop();
            },
            |bytes| bytes.extend([0, 0]),
            |bytes| bytes.clear(),
        ];
        flaws.extend(
            changes.map(|change| -> Flaw { Box::new(move |request| lent(request, change)) }),
        );
    }
    flaws
}

/// Every n and m up to 66.
fn every_size(comparer: &mut OrderComparer) -> Outcome {
    for (n, m) in (0..=66).flat_map(|n| [0, 1, 2, 64, 65].map(|m| (n, m))) {
        for question in QUESTIONS {
            let list: Vec<u16> = (0..(n * m) as u16).collect();
            let request = OrderRequest::new(question, n, m, &list, &own_order(n));
            comparer.compare(&request)?;
        }
    }
    Ok(())
}

/// Every list of three blocks of one page and of two, and of four blocks of one, with
/// drops and without, in every order; of five blocks, in some.
fn every_list(comparer: &mut OrderComparer, random: &mut Random) -> Outcome {
    for (n, m) in [(3, 1), (3, 2), (4, 1), (5, 1)] {
        let orders: Vec<Vec<u8>> = all_permutations(n)
            .into_iter()
            .map(|order| order.into_iter().map(|index| index as u8 + 1).collect())
            .collect();
        let mut lists = all_permutations(n * m);
        lists.extend(all_with_drops(n * m));
        for list in lists {
            let some = [random.pick(&orders).clone(), random.pick(&orders).clone()];
            for order in if n < 5 { &orders[..] } else { &some[..] } {
                comparer.compare(&OrderRequest::new(Question::Least, n, m, &list, order))?;
            }
            let lent = random.bytes(n);
            comparer.compare(&OrderRequest::new(Question::Best, n, m, &list, &lent))?;
        }
    }
    Ok(())
}

fn papers(comparer: &mut OrderComparer, random: &mut Random) -> Outcome {
    for moves in [&EIGHT[..], &FOURTEEN[..], &TWENTY_ONE[..]] {
        let n = moves.len();
        let list: Vec<u16> = moves.iter().map(|block| block - 1).collect();
        comparer.compare(&OrderRequest::new(
            Question::Least,
            n,
            1,
            &list,
            &own_order(n),
        ))?;
        for _ in 0..50 {
            let order = any_order(n, random);
            let list = random.dropping(list.clone());
            comparer.compare(&OrderRequest::new(Question::Least, n, 1, &list, &order))?;
        }
    }
    Ok(())
}

/// The blocks' own order, the same backward, moved on, with two exchanged, or any.
fn some_order(n: usize, random: &mut Random) -> Vec<u8> {
    let mut order = own_order(n);
    match random.below(5) {
        0 => {}
        1 => order.reverse(),
        2 => order.rotate_left(random.below(n)),
        3 => order.swap(random.below(n), random.below(n)),
        _ => order = any_order(n, random),
    }
    order
}

/// A list in which no page forbids `level`, by this order: those that do are
/// dropped. The others stay, are moved by some blocks at most, or go anywhere.
fn tame_list(n: usize, m: usize, order: &[u8], level: usize, random: &mut Random) -> Vec<u16> {
    let mut list = match random.below(3) {
        0 => random.keeping(n * m),
        1 => nearby(n * m, random),
        _ => random.permutation(n * m),
    };
    let mut place = vec![0; n + 1];
    for (index, &block) in order.iter().enumerate() {
        place[block as usize] = index + 1;
    }
    for k in 0..n * m {
        let (j, i) = (place[k / m + 1], place[list[k] as usize / m + 1]);
        if j >= i + 2 && i > level {
            list[k] = u16::MAX;
        }
    }
    list
}

/// Neighbours are exchanged, some pages more than once.
fn nearby(len: usize, random: &mut Random) -> Vec<u16> {
    let mut list: Vec<u16> = (0..len as u16).collect();
    for _ in 0..random.below(2 * len) {
        let at = random.below(len - 1);
        list.swap(at, at + 1);
    }
    list
}

/// Of any sizes, with y of every height.
fn random_lists(comparer: &mut OrderComparer, random: &mut Random) -> Outcome {
    for round in 0..3000 {
        let widest = 3 + 61 * round / 3000;
        let n = random.between(3, widest);
        let most = if random.one_in(10) { 64 } else { 5 };
        let m = random.between(1, most);
        let order = some_order(n, random);
        let level = random.below(n);
        let list = tame_list(n, m, &order, level, random);
        let list = random.dropping(list);
        comparer.compare(&OrderRequest::new(Question::Least, n, m, &list, &order))?;
        let other = some_order(n, random);
        comparer.compare(&OrderRequest::new(Question::Least, n, m, &list, &other))?;
    }
    for (n, m) in [(64, 64), (63, 64), (64, 63), (3, 64)] {
        for _ in 0..6 {
            let order = some_order(n, random);
            let level = random.below(n);
            let list = tame_list(n, m, &order, level, random);
            comparer.compare(&OrderRequest::new(Question::Least, n, m, &list, &order))?;
        }
    }
    Ok(())
}

fn searched(comparer: &mut OrderComparer, random: &mut Random) -> Outcome {
    for round in 0..1200 {
        let n = random.between(3, 3 + round / 300);
        let m = random.between(1, 4);
        any_searched(comparer, n, m, random)?;
    }
    for m in [1, 2, 9, 64] {
        for _ in 0..3 {
            any_searched(comparer, 7, m, random)?;
        }
    }
    Ok(())
}

/// The best order may be far from the blocks' own. The more pages are dropped, the
/// better it is.
fn any_searched(comparer: &mut OrderComparer, n: usize, m: usize, random: &mut Random) -> Outcome {
    let order = any_order(n, random);
    let level = random.below(n - 1);
    let mut list = tame_list(n, m, &order, level, random);
    if !random.one_in(3) {
        list = random.permutation(n * m);
        let kept = *random.pick(&[1, 1, 2, 4]);
        for entry in &mut list {
            if !random.one_in(kept) {
                *entry = u16::MAX;
            }
        }
    }
    let lent = random.bytes(n);
    let found = comparer.compare(&OrderRequest::new(Question::Best, n, m, &list, &lent))?;
    comparer.compare(&OrderRequest::new(
        Question::Least,
        n,
        m,
        &list,
        &found.order,
    ))?;
    Ok(())
}
