//! Inputs of the step program with the output that the rules ask for.

use super::tally::{ensure, same, Tally};
use crate::simulator::step_program::step_program;

/// The worked example, with its text.
pub const EXAMPLE: &str = "3 1 1 0 1 2 0 1 2 4";
pub const EXAMPLE_TEXT: &str = "\
0 W 0 0 05
1 E 1
2 W 1 0 03
3 E 2
4 W 2 0 04
5 E 3
6 W 3 0 02
7 E 2
8 W 2 0 01
9 E 1
10 W 1 0 04
11 E 0
end 6 6
";

/// Two pages of two bytes a block; the list of P1.
pub const TWO_BY_TWO: &str = "2 2 2 1 0 2 1 3 1 16 2 32 4 64 8 128";
const TWO_BY_TWO_TEXT: &str = "\
0 W 0 0 0660
1 W 0 1 0110
2 E 1
3 W 1 0 0440
4 W 1 1 0880
5 E 2
6 W 2 0 0220
7 W 2 1 0880
8 E 1
9 W 1 0 0110
10 W 1 1 0440
11 E 0
end 8 4
";

/// The example with its second page dropped, which is paired with place 2: its
/// moves stay the same.
pub const DROPPING: &str = "3 1 1 0 1 65535 0 1 2 4";
pub const DROPPING_TEXT: &str = "\
0 W 0 0 05
1 E 1
2 W 1 0 fe
3 E 2
4 W 2 0 04
5 E 3
6 W 3 0 ff
7 E 2
8 W 2 0 01
9 E 1
10 W 1 0 04
11 E 0
end 6 6
";

/// With its last page dropped, which is the top.
const DROPPING_TOP: &str = "3 1 1 0 1 2 65535 1 2 4";
const DROPPING_TOP_TEXT: &str = "\
0 W 0 0 fe
1 E 1
2 W 1 0 03
3 E 2
4 W 2 0 ff
5 E 3
6 W 3 0 02
7 E 2
8 W 2 0 01
9 E 1
10 W 1 0 ff
11 E 0
end 6 6
";

/// Pages 0 and 2 are dropped; nobody fills places 1 and 3.
const DROPPING_TWO: &str = "2 2 2 1 65535 2 65535 0 1 16 2 32 4 64 8 128";
const DROPPING_TWO_TEXT: &str = "\
0 W 0 0 ffff
1 W 0 1 0aa0
2 E 1
3 W 1 0 ffff
4 W 1 1 0880
5 E 2
6 W 2 0 0220
7 W 2 1 ffff
8 E 1
9 W 1 0 0880
10 W 1 1 ffff
11 E 0
end 8 4
";

const DROPPING_ALL: &str = "2 1 1 2 65535 65535 7 9";
const DROPPING_ALL_TEXT: &str = "\
0 W 0 0 ff
1 E 1
2 W 1 0 ff
3 E 2
4 W 2 0 ff
5 E 1
6 W 1 0 ff
7 E 0
end 4 4
";

/// Inputs with dropped pages, each with its text.
pub const DROPPING_INPUTS: &[(&str, &str)] = &[
    (DROPPING, DROPPING_TEXT),
    (DROPPING_TOP, DROPPING_TOP_TEXT),
    (DROPPING_TWO, DROPPING_TWO_TEXT),
    (DROPPING_ALL, DROPPING_ALL_TEXT),
];

const UNREADABLE: &str = "unreadable\n";
const REFUSED_1: &str = "refused 1\n";
const REFUSED_3: &str = "refused 3\n";

pub const UNREADABLE_INPUTS: &[&str] = &[
    "",
    " \n ",
    "3",
    "9 1 1",
    "9 x 1 0",
    "-3 1 1 0",
    "+3 1 1 0",
    "9 1 1 0x",
    "9 1 1 0\t5",
    "9 1 1 0,5",
    "9\t1 1 0",
    "9 1 1 0\r\n",
    "000009 1 1 0",
    "100000 1 1 0",
    "3 1 1 0",
    "3 1 1 0 1 2 0 1 2",
    "3 1 1 0 1 2 0 1 2 4 0",
    "3 1 1 0 1 2 0 1 2 x",
    "3 1 1 0 1 2 0 1 2 4x",
    "3 1 1 0 1 2 0 1 2 4\t",
    "3 1 1 0 1 2 0 1 2 4\r\n",
    "3 1 1 0 1 2 0\t1 2 4",
    "3 1 1 0 1 2 0 1 2 -4",
    "3 1 1 0 1 2 0 1 2 256",
    "3 1 1 0 1 2 0 1 2 99999",
    "3 1 1 0 1 2 0 1 2 000004",
    "3 1 1 0 1 000002 0 1 2 4",
    "3 1 1 0 1 123456 0 1 2 4",
    "3 1 1 0 1 1 1 1 2 256",
    "3 1 1 0 1 1 1 1 2",
    "3 1 1 0 1 1 1 1 2 4 4",
    "3 1 1 0 1 2 065535 1 2 4",
    "3 1 1 0 1 2 0 1 2 65535",
    "3 1 1 0 65535 1 1 1 2",
    "3 1 1 0 1.0 2 0 1 2 4",
    "3 1 1 0 1 2 0 1 2 4\0",
    "3 1 1 0 1 2 0 1 2 \u{e9}",
    "0x3 1 1 0 1 2 0 1 2 4",
];

pub const REFUSED_1_INPUTS: &[&str] = &[
    "9 1 1 0",
    "9 1 1 0 x",
    "9 1 1 0\nx\t",
    "0 1 1 0",
    "1 0 1 0",
    "1 9 1 0",
    "1 1 0 0",
    "1 1 65 0",
    "1 1 1 3",
    "99999 99999 99999 99999",
    "65537 1 1 0 0 0",
    "3 1 1 3 1 2 0 1 2 4",
    " \n9  1\n\n1 0 ",
];

pub const REFUSED_3_INPUTS: &[&str] = &[
    "3 1 1 0 1 1 0 1 2 4",
    "3 1 1 0 1 2 3 1 2 4",
    "3 1 1 0 1 2 65534 1 2 4",
    "3 1 1 0 1 2 65536 1 2 4",
    "3 1 1 0 1 2 99999 1 2 4",
    "3 1 1 0 65535 1 1 1 2 4",
    "3 1 1 0 65535 3 1 1 2 4",
    "3 1 1 0 65535 65536 1 1 2 4",
    "3 1 1 0 65535 65534 65535 1 2 4",
    "1 1 1 0 1 7",
    "1 1 1 0 65536 7",
];

/// Other writings of the example.
pub const SAME_AS_EXAMPLE: &[&str] = &[
    "3 1 1 0 1 2 0 1 2 4\n",
    "\n \n3\n1\n1\n0\n1\n2\n0\n1\n2\n4 \n",
    "  3  1  1  0  1  2  0  1  2  4  ",
    "00003 01 1 0 1 00002 0 001 2 00004",
];

pub fn check(tally: &mut Tally) {
    tally.check("the example", gives(EXAMPLE.as_bytes(), EXAMPLE_TEXT));
    tally.check("two by two", gives(TWO_BY_TWO.as_bytes(), TWO_BY_TWO_TEXT));
    for (input, due) in DROPPING_INPUTS {
        tally.check(&format!("input {input:?}"), gives(input.as_bytes(), due));
    }
    let groups = [
        (UNREADABLE_INPUTS, UNREADABLE),
        (REFUSED_1_INPUTS, REFUSED_1),
        (REFUSED_3_INPUTS, REFUSED_3),
        (SAME_AS_EXAMPLE, EXAMPLE_TEXT),
    ];
    for (inputs, due) in groups {
        for input in inputs {
            tally.check(&format!("input {input:?}"), gives(input.as_bytes(), due));
        }
    }
    for (index, (input, due)) in long_inputs().into_iter().enumerate() {
        tally.check(&format!("long input {index}"), gives(&input, due));
    }
    tally.check(
        "bytes that are no text",
        gives(b"3 1 1 0 1 2 0 1 2 \xff", UNREADABLE),
    );
    tally.check("the biggest sizes", biggest_sizes());
}

fn gives(input: &[u8], due: &str) -> Result<(), String> {
    same("the output", step_program(input), due.to_string())
}

/// A text that ends where the input has this length, with spaces before it,
/// and what stands behind it.
struct LongInput {
    text: &'static str,
    end: usize,
    behind: &'static str,
    due: &'static str,
}

const fn long(
    text: &'static str,
    end: usize,
    behind: &'static str,
    due: &'static str,
) -> LongInput {
    LongInput {
        text,
        end,
        behind,
        due,
    }
}

/// Around the limit of 4,096 bytes.
const LONG_INPUTS: &[LongInput] = &[
    long(EXAMPLE, 4096, "", EXAMPLE_TEXT),
    long(EXAMPLE, 4095, " ", EXAMPLE_TEXT),
    long(EXAMPLE, 4096, " ", UNREADABLE),
    long(EXAMPLE, 4096, "\n", UNREADABLE),
    long(EXAMPLE, 4095, "  ", UNREADABLE),
    long("9 1 1 0 x", 4096, "x", REFUSED_1),
    long("9 1 1 0", 4096, "", REFUSED_1),
    long("9 1 1 0", 4096, " ", UNREADABLE),
    long("9 1 1 0", 4096, "0", UNREADABLE),
    long("9 1 1 0", 4095, " 7", REFUSED_1),
    long("9 1 1 0", 4095, "x7", UNREADABLE),
    long("9 1 1", 4095, " 0", UNREADABLE),
    long("9 1 1 3", 4095, "\n3", REFUSED_1),
    long("3 1 1 0", 4096, " 1 2", UNREADABLE),
    long("3 1 1 0", 4095, " 1 2", UNREADABLE),
    long("", 4096, " ", UNREADABLE),
    long("9 1 1 0", 9000, "", UNREADABLE),
];

/// Each with its output due; some are far longer than the limit.
pub fn long_inputs() -> Vec<(Vec<u8>, &'static str)> {
    let laid_out = |input: &LongInput| {
        let spaces = " ".repeat(input.end - input.text.len());
        (
            format!("{spaces}{}{}", input.text, input.behind).into_bytes(),
            input.due,
        )
    };
    let mut inputs: Vec<(Vec<u8>, &'static str)> = LONG_INPUTS.iter().map(laid_out).collect();
    let tail = "7".repeat(100_000);
    inputs.push((format!("9 1 1 0 {tail}").into_bytes(), REFUSED_1));
    inputs.push((format!("{EXAMPLE} {tail}").into_bytes(), UNREADABLE));
    inputs
}

/// n = m = 8 and P = 22 bring the digits close to the limit of the input.
fn biggest_sizes() -> Result<(), String> {
    let numbers = |count: usize| vec!["0"; count].join(" ");
    let list: Vec<String> = (0..64).map(|entry: u32| entry.to_string()).collect();
    let input = format!("8 8 22 2 {} {}", list.join(" "), numbers(64 * 22));
    let text = step_program(input.as_bytes());
    ensure(text.ends_with("\nend 128 16\n"), || text.clone())?;
    same("lines", text.lines().count(), 2 * 8 * 9 + 1)?;
    let wide = format!("1 1 64 0 0 {}", numbers(64));
    let first = format!("0 W 0 0 {}\n", "00".repeat(64));
    ensure(step_program(wide.as_bytes()).starts_with(&first), || {
        "P = 64".into()
    })
}
