//! Listings checked by hand, and the method's for every small list.

use super::tally::{ensure, same, Tally};
use crate::random::{all_permutations, Random};
use crate::scene::small_shapes;
use crate::simulator::listing::calls::listing_answer;
use crate::simulator::listing::method::{by_copies, by_method, listing, Entry};
use crate::simulator::listing::request::ListingRequest;
use crate::simulator::listing::state::{determined, Sum};
use crate::simulator::step_program::step_program;

type Outcome = Result<(), String>;

/// The step program's example in this form.
pub const EXAMPLE: &str = "\
0 W 0 0 0 2
1 E 1
2 W 1 0 0 1
3 E 2
4 W 2 0 2
5 E 3
6 W 3 0 1
7 E 2
8 W 2 0 0
9 E 1
10 W 1 0 2
11 E 0
end 6 6
";

pub fn check(tally: &mut Tally, random: &mut Random) {
    let turn = listing(&by_method(3, 1, &[1, 2, 0]));
    tally.check("the example as a listing", same("text", &turn[..], EXAMPLE));
    for (text, due) in CASES {
        let name = format!("listing {text:?}");
        tally.check(&name, gives(2, 1, &[1, 0], text, *due));
    }
    tally.check(
        "no steps for the identity",
        gives(2, 2, &[0, 1, 2, 3], "end 0 0\n", YES),
    );
    tally.check("pages may be skipped", skipped_pages());
    tally.check("the lowest block as top", lowest_top());
    tally.check("what sums determine", by_all_values(random));
    for (n, m) in small_shapes(6) {
        tally.check(
            &format!("the method for n = {n}, m = {m}"),
            method_passes(n as usize, m as usize),
        );
    }
    tally.check("the biggest sizes", biggest(random));
    tally.check("listings and the step program", as_the_program(random));
}

const YES: (u32, u32, u32) = (0, 0, 1);
const NO: (u32, u32, u32) = (0, 0, 0);

/// For two blocks of one page that trade places: the number, line, accepted.
const CASES: &[(&str, (u32, u32, u32))] = &[
    (
        "0 W 0 0 0\n1 E 1\n2 W 1 0 1\n3 E 2\n4 W 2 0 0\n5 E 0\nend 3 3\n",
        YES,
    ),
    (
        "0 W 0 0 0 1\n1 E 1\n2 W 1 0 1\n3 E 2\n4 W 2 0 0\n5 E 0\nend 3 3\n",
        YES,
    ),
    (
        "0 W 0 0 0\n1 E 1\n2 W 1 0 1\n3 E 2\n4 W 2 0 0\n5 E 0\nend 3 2\n",
        NO,
    ),
    (
        "0 W 0 0 0\n1 E 1\n2 W 1 0 1\n3 E 2\n4 W 2 0 0\n5 E 0\nend 4294967299 3\n",
        NO,
    ),
    ("0 W 0 0 0\n1 E 1\n2 W 1 0 1\n3 E 2\n4 W 2 0 0\n5 E 0\n", NO),
    (
        "0 W 0 0 0\n1 E 1\n2 W 1 0 1\n3 E 2\n4 W 2 0 0\nend 3 2\n",
        NO,
    ),
    (
        "0 W 0 0 0\n1 E 1\n2 W 1 0 1\n3 E 2\n4 W 2 0 0 1\n5 E 0\nend 3 3\n",
        NO,
    ),
    ("", NO),
    ("end 0 0\n", NO),
    ("0 E 0\n1 E 0\nend 0 2\n", NO),
    ("\n", (13, 1, 0)),
    ("end 0 0", (13, 1, 0)),
    ("end 0 0\r\n", (13, 1, 0)),
    ("end 00 0\n", (13, 1, 0)),
    ("end 0 0\n\n", (13, 2, 0)),
    ("end 0 0\nend 0 0\n", (13, 2, 0)),
    ("0 W 0 0 0\n1 E 1", (13, 2, 0)),
    ("0 W 0 0\n", (13, 1, 0)),
    ("0 W 0 0 \n", (13, 1, 0)),
    ("0 W 0 0 1 0\n", (13, 1, 0)),
    ("0 W 0 0 1 1\n", (13, 1, 0)),
    ("0 W 0 0 2\n", (13, 1, 0)),
    ("0 W 0 1 0\n", (13, 1, 0)),
    ("0 W 3 0 0\n", (13, 1, 0)),
    ("0 E 3\n", (13, 1, 0)),
    ("1 E 0\n", (13, 1, 0)),
    ("0 E 18446744073709551616\n", (13, 1, 0)),
    ("0 E 0 \n", (13, 1, 0)),
    ("0 e 0\n", (13, 1, 0)),
    ("0 W 1 0 1\n", (14, 1, 0)),
    ("0 W 0 0 0\n1 W 0 0 1\n", (14, 2, 0)),
    ("0 W 0 0 0\n1 W 0 0 2\n", (13, 2, 0)),
    ("0 W 0 0 0\n1 E 0\n2 W 0 0 1\n3 E 0\nend 2 2\n", NO),
    ("0 E 1\n", (15, 1, 0)),
    ("0 W 0 0 1\n1 E 1\nx\n", (15, 2, 0)),
    ("0 E 1\n1 W 1 0 0\n2 E 0\nend 1 2\n", (15, 1, 0)),
];

fn gives(n: usize, m: usize, list: &[u16], text: &str, due: (u32, u32, u32)) -> Outcome {
    let answer = listing_answer(&ListingRequest::new(n, m, list, text));
    let given = (answer.returned, answer.line, answer.accepted);
    same("number, line and accepted", given, due)
}

/// In one block of three pages: 0 and 2 of the spare, then not 1.
fn skipped_pages() -> Outcome {
    let list = [0, 1, 2];
    let rest = "2 E 0\nend 2 1\n";
    gives(1, 3, &list, &format!("0 W 0 0 1\n1 W 0 2 0\n{rest}"), YES)?;
    gives(
        1,
        3,
        &list,
        &format!("0 W 0 2 1\n1 W 0 1 0\n{rest}"),
        (14, 2, 0),
    )?;
    let anew = "0 W 0 2 1\n1 E 0\n2 W 0 1 0\n3 E 0\nend 2 2\n";
    gives(1, 3, &list, anew, YES)
}

/// In the example original 2 is lost at step 7.
fn lowest_top() -> Outcome {
    let text = "0 W 0 0 0\n1 E 1\n2 W 1 0 0 1\n3 E 2\n4 W 2 0 1 2\n5 E 3\n6 W 3 0 1\n7 E 2\n";
    gives(3, 1, &[1, 2, 0], text, (15, 8, 0))
}

/// An original is determined if all its values that fit the stored pages are
/// one: held against every choice of bits.
fn by_all_values(random: &mut Random) -> Outcome {
    for _ in 0..3000 {
        let originals = random.between(1, 5);
        let count = random.below(originals + 3);
        let sums: Vec<Sum> = (0..count)
            .map(|_| random.below(1 << originals) as Sum)
            .collect();
        let stored = |values: Sum| -> Vec<u32> {
            sums.iter()
                .map(|sum| (sum & values).count_ones() % 2)
                .collect()
        };
        let mut due = 0;
        for k in 0..originals {
            let twins = (0..1 << originals).any(|one: Sum| {
                (0..1 << originals)
                    .any(|other: Sum| (one ^ other) >> k & 1 == 1 && stored(one) == stored(other))
            });
            due |= Sum::from(!twins) << k;
        }
        same(&format!("{sums:?}"), determined(&sums, originals), due)?;
    }
    Ok(())
}

fn method_passes(n: usize, m: usize) -> Outcome {
    for list in all_permutations(n * m) {
        let text = listing(&by_method(n, m, &list));
        gives(n, m, &list, &text, YES).map_err(|why| format!("{list:?}: {why}"))?;
    }
    Ok(())
}

/// n x m = 64, by the method and by copies.
fn biggest(random: &mut Random) -> Outcome {
    for (n, m) in [(64, 1), (1, 64), (8, 8), (32, 2)] {
        let list = random.permutation(64);
        gives(n, m, &list, &listing(&by_method(n, m, &list)), YES)?;
        let to = random.permutation(n);
        let list: Vec<u16> = (0..64)
            .map(|k| to[k / m] * m as u16 + (k % m) as u16)
            .collect();
        gives(n, m, &list, &listing(&by_copies(m, &to, &list)), YES)?;
    }
    Ok(())
}

/// With a bit of its own in each original the step program's bytes show the
/// same sums.
fn as_the_program(random: &mut Random) -> Outcome {
    for (n, m) in [(1, 1), (2, 2), (3, 2), (4, 2), (2, 4), (8, 1), (1, 8)] {
        let list = random.permutation(n * m);
        let words = |numbers: Vec<usize>| -> String {
            numbers.iter().map(|number| format!(" {number}")).collect()
        };
        let entries = words(list.iter().map(|&entry| entry as usize).collect());
        let bits = words((0..n * m).map(|k| 1 << k).collect());
        let text = step_program(format!("{n} {m} 1 0{entries}{bits}").as_bytes());
        let mut lines = text.lines();
        for entry in by_method(n, m, &list) {
            let line = lines.next().unwrap_or_default();
            let due = match entry {
                Entry::Erase(block) => format!("E {block}"),
                Entry::Write(block, page, originals) => {
                    let byte = originals.iter().fold(0, |byte, &k| byte | 1 << k);
                    format!("W {block} {page} {byte:02x}")
                }
            };
            ensure(line.ends_with(&due), || format!("{line} is to be {due}"))?;
        }
    }
    Ok(())
}
