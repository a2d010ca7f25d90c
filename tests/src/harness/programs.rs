//! Compares a step program with the simulator's text.

use crate::checks::papers::EIGHT;
use crate::checks::step_inputs::{
    long_inputs, DROPPING_INPUTS, EXAMPLE, REFUSED_1_INPUTS, REFUSED_3_INPUTS, SAME_AS_EXAMPLE,
    TWO_BY_TWO, UNREADABLE_INPUTS,
};
use crate::random::Random;
use crate::simulator::step_program::{step_program, step_program_by_originals, INPUT_LIMIT};

const RANDOM_INPUTS: usize = 400;
const WRONG_INPUTS: usize = 50;

/// Gives each input to the program; the first other output is reported.
pub fn compare_program(seed: u64, mut program: impl FnMut(&[u8]) -> Vec<u8>) -> Result<(), String> {
    inputs(seed)
        .iter()
        .try_for_each(|input| same_output(input, &program(input)))
}

pub fn same_output(input: &[u8], given: &[u8]) -> Result<(), String> {
    same_text(input, given, step_program(input))
}

/// The same for the second form.
pub fn same_originals(input: &[u8], given: &[u8]) -> Result<(), String> {
    same_text(input, given, step_program_by_originals(input))
}

fn same_text(input: &[u8], given: &[u8], due: String) -> Result<(), String> {
    if given == due.as_bytes() {
        return Ok(());
    }
    let input = String::from_utf8_lossy(input);
    let given = String::from_utf8_lossy(given);
    Err(format!("input {input:?}\ngives {given:?}\n  due {due:?}"))
}

pub fn inputs(seed: u64) -> Vec<Vec<u8>> {
    let random = &mut Random::new(seed);
    let groups = [
        &[EXAMPLE, TWO_BY_TWO],
        SAME_AS_EXAMPLE,
        UNREADABLE_INPUTS,
        REFUSED_1_INPUTS,
        REFUSED_3_INPUTS,
    ];
    let fixed = groups.into_iter().flatten();
    let mut inputs: Vec<Vec<u8>> = fixed.map(|text| text.as_bytes().to_vec()).collect();
    inputs.extend(
        DROPPING_INPUTS
            .iter()
            .map(|(input, _)| input.as_bytes().to_vec()),
    );
    inputs.extend(long_inputs().into_iter().map(|(input, _)| input));
    inputs.push(b"3 1 1 0 1 2 0 1 2 \xff".to_vec());
    inputs.extend(eight_blocks().iter().map(|numbers| numbers.words(" ")));
    for _ in 0..RANDOM_INPUTS {
        let right = Numbers::random(random).written(random);
        inputs.push(one_byte_other(&right, random));
        inputs.push(right);
    }
    for wrong in WRONG {
        for _ in 0..WRONG_INPUTS {
            let mut numbers = Numbers::random(random);
            wrong(&mut numbers, random);
            inputs.push(numbers.written(random));
        }
    }
    inputs
}

/// The numbers of an input: n, m, P and s, the list, the bytes.
struct Numbers {
    sizes: [usize; 4],
    list: Vec<usize>,
    bytes: Vec<usize>,
}

impl Numbers {
    /// A move mostly within the limit of the input.
    fn random(random: &mut Random) -> Numbers {
        let (n, m) = (random.between(1, 8), random.between(1, 8));
        let most_bytes = (INPUT_LIMIT / (3 * n * m)).clamp(1, 64);
        let page_bytes = random.between(1, most_bytes);
        let list = random.permutation(n * m);
        let list = random.dropping(list);
        let bytes = random.bytes(n * m * page_bytes);
        Numbers {
            sizes: [n, m, page_bytes, random.below(3)],
            list: list.iter().map(|&entry| entry as usize).collect(),
            bytes: bytes.iter().map(|&byte| byte as usize).collect(),
        }
    }

    fn words(&self, separator: &str) -> Vec<u8> {
        let numbers = self.sizes.iter().chain(&self.list).chain(&self.bytes);
        let words: Vec<String> = numbers.map(usize::to_string).collect();
        words.join(separator).into_bytes()
    }

    fn written(&self, random: &mut Random) -> Vec<u8> {
        let separator: &str = random.pick::<&str>(&[" ", "\n", "  "]);
        self.words(separator)
    }
}

/// The list of 8 blocks of "Storage Coding" (docs/RULES.md) with each letter; each original is a single bit.
fn eight_blocks() -> Vec<Numbers> {
    let with_letter = |s| Numbers {
        sizes: [8, 1, 1, s],
        list: EIGHT.iter().map(|&block| block as usize - 1).collect(),
        bytes: (0..8).map(|bit| 1 << bit).collect(),
    };
    (0..3).map(with_letter).collect()
}

/// Each makes one number wrong, or one too few or too many.
const WRONG: [fn(&mut Numbers, &mut Random); 8] = [
    |numbers, random| {
        let most = numbers.list.len();
        numbers.list[random.below(most)] = most;
    },
    |numbers, random| {
        let most = numbers.list.len();
        numbers.list[random.below(most)] = random.below(most);
    },
    // 16 bits of it would be a good entry
    |numbers, random| {
        let most = numbers.list.len();
        numbers.list[random.below(most)] = 65536 + random.below(most);
    },
    // beside 65535, or above what 16 bits hold
    |numbers, random| {
        let most = numbers.list.len();
        numbers.list[random.below(most)] = *random.pick(&[65534, 65536, 65537, 99999]);
    },
    |numbers, random| {
        let most = numbers.bytes.len();
        numbers.bytes[random.below(most)] += 256;
    },
    |numbers, _| {
        numbers.bytes.pop();
    },
    |numbers, random| numbers.bytes.push(random.below(256)),
    // a size above its limit by one
    |numbers, random| {
        let which = random.below(4);
        numbers.sizes[which] = [9, 9, 65, 3][which];
    },
];

fn one_byte_other(input: &[u8], random: &mut Random) -> Vec<u8> {
    let mut input = input.to_vec();
    let at = random.below(input.len());
    let byte = *random.pick(b"0123456789 \n\t\rx-\0");
    match random.below(3) {
        0 => input[at] = byte,
        1 => input.insert(at, byte),
        _ => {
            input.remove(at);
        }
    }
    input
}
