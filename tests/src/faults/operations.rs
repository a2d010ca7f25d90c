//! Answers of the call that tells the step at a place, with one fault each.

use crate::harness::operations::Told;

pub struct FaultyTelling {
    pub name: &'static str,
    /// The answer for these sizes and this place, made from the one due.
    pub told: fn([u32; 3], u32, Told) -> Told,
}

pub fn faulty_tellings() -> Vec<FaultyTelling> {
    let fault = |name, told| FaultyTelling { name, told };
    vec![
        fault("an erase is told as a write", |_, _, told| match told {
            [0, 1, block, page, mark] => [0, 0, block, page, mark],
            other => other,
        }),
        fault(
            "the mark is always s + 1",
            |[_, _, s], _, told| match told {
                [0, 0, block, page, _] => [0, 0, block, page, (s + 1) % 3],
                other => other,
            },
        ),
        fault(
            "no step is left after the last block",
            |_, _, told| match told {
                [0, 1, 0, 0, 0] => [0, 2, 0, 0, 0],
                other => other,
            },
        ),
        fault(
            "a place above the end is told as the end",
            |_, _, told| match told {
                [5, ..] => [0, 2, 0, 0, 0],
                other => other,
            },
        ),
        fault(
            "64 pages a block are refused",
            |[_, m, _], _, told| match m {
                64 => [1, 0, 0, 0, 0],
                _ => told,
            },
        ),
        fault(
            "the place is looked at before the sizes",
            |_, place, told| match place {
                u32::MAX => [5, 0, 0, 0, 0],
                _ => told,
            },
        ),
    ]
}
