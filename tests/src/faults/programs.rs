//! Step programs with one fault each.

use crate::simulator::step_program::{step_program, INPUT_LIMIT};

pub struct FaultyProgram {
    pub name: &'static str,
    pub answer: fn(&[u8]) -> Vec<u8>,
}

pub fn faulty_programs() -> Vec<FaultyProgram> {
    let fault = |name, answer| FaultyProgram { name, answer };
    vec![
        fault("a tab parts numbers", |input| {
            on(replaced(input, b'\t', b' '))
        }),
        fault("a carriage return parts numbers", |input| {
            on(replaced(input, b'\r', b' '))
        }),
        fault("input is cut at the limit", |input| {
            on(input[..input.len().min(INPUT_LIMIT)].to_vec())
        }),
        fault("one byte more is taken", one_byte_more),
        fault("the last line has no line feed", |input| {
            step_program(input).trim_end().as_bytes().to_vec()
        }),
        fault("hexadecimal in capitals", capital_digits),
        fault("a list entry is cut to 16 bits", |input| {
            on(with_words(input, to_16_bits))
        }),
        fault("an entry of 65535 is refused", drops_refused),
        fault("an entry above 65535 drops its page", |input| {
            on(with_words(input, saturated))
        }),
        fault("six digits are taken", |input| {
            on(with_words(input, without_zeros))
        }),
        fault(
            "a bad list is refused before the bytes are read",
            list_first,
        ),
    ]
}

fn on(input: Vec<u8>) -> Vec<u8> {
    step_program(&input).into_bytes()
}

fn replaced(input: &[u8], from: u8, to: u8) -> Vec<u8> {
    let swap = |&byte: &u8| if byte == from { to } else { byte };
    input.iter().map(swap).collect()
}

fn one_byte_more(input: &[u8]) -> Vec<u8> {
    let spare_byte = input.len() == INPUT_LIMIT + 1 && input.ends_with(b" ");
    on(input[..input.len() - spare_byte as usize].to_vec())
}

fn capital_digits(input: &[u8]) -> Vec<u8> {
    let text = step_program(input);
    let lines = text.lines().map(|line| match line.contains(" W ") {
        true => format!("{}\n", line.to_uppercase()),
        false => format!("{line}\n"),
    });
    lines.collect::<String>().into_bytes()
}

/// The same separators around changed words.
fn with_words(input: &[u8], change: fn(&str) -> String) -> Vec<u8> {
    let text = String::from_utf8_lossy(input);
    let words: Vec<String> = text.split(' ').map(change).collect();
    words.join(" ").into_bytes()
}

fn to_16_bits(word: &str) -> String {
    match word.parse::<u32>() {
        Ok(number @ 65536..=99999) => (number % 65536).to_string(),
        _ => word.to_string(),
    }
}

/// No byte is that big, so that only an entry can be.
fn drops_refused(input: &[u8]) -> Vec<u8> {
    let text = String::from_utf8_lossy(input);
    let mut words = text.split_ascii_whitespace();
    let given = step_program(input);
    match given.starts_with("0 W") && words.any(|word| word == "65535") {
        true => b"refused 3\n".to_vec(),
        false => given.into_bytes(),
    }
}

fn saturated(word: &str) -> String {
    match word.parse::<u32>() {
        Ok(65536..=99999) => "65535".to_string(),
        _ => word.to_string(),
    }
}

fn without_zeros(word: &str) -> String {
    match word.strip_prefix('0') {
        Some(rest) if word.len() == 6 => rest.to_string(),
        _ => word.to_string(),
    }
}

/// Judges the list of the example's sizes, whatever stands behind it.
fn list_first(input: &[u8]) -> Vec<u8> {
    let text = String::from_utf8_lossy(input);
    let words: Vec<&str> = text.split(' ').take(7).collect();
    let with_good_bytes = format!("{} 0 0 0", words.join(" "));
    match step_program(with_good_bytes.as_bytes()) {
        refused if refused == "refused 3\n" => refused.into_bytes(),
        _ => on(input.to_vec()),
    }
}
