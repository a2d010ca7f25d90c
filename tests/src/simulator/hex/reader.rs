//! The reader: record after record, up to the first faulty one.

use super::record::{parse, Record};
use super::rules::HexRules;

/// An address has a lower half of 16 bits.
pub const SPAN: usize = 65536;

pub const MALFORMED: u32 = 8;
pub const OUTSIDE: u32 = 9;
pub const TWICE: u32 = 10;

/// What the records up to some point have given.
#[derive(Clone)]
pub struct Reading {
    pub upper: usize,
    /// The bytes of the image; none where nothing was given.
    pub given: Vec<Option<u8>>,
    pub ended: bool,
}

impl Reading {
    fn new(image_bytes: usize) -> Reading {
        Reading {
            upper: 0,
            given: vec![None; image_bytes],
            ended: false,
        }
    }

    /// What is wrong with a line here, the lowest number first; after the end
    /// record nothing may come, however formed.
    pub fn fault<R: HexRules>(&self, line: &[u8]) -> Option<u32> {
        if self.ended {
            return Some(TWICE);
        }
        let Some(record) = parse::<R>(line) else {
            return Some(MALFORMED);
        };
        let Record::Data { address, bytes } = record else {
            return None;
        };
        let start = R::start(self.upper, address);
        let end = start + bytes.len();
        if R::runs_over(address, bytes.len()) || end > self.given.len() {
            return Some(OUTSIDE);
        }
        let twice = self.given[start..end].iter().any(Option::is_some);
        twice.then_some(TWICE)
    }

    /// Takes a record that has no fault.
    fn take<R: HexRules>(&mut self, line: &[u8]) {
        match parse::<R>(line) {
            Some(Record::Upper(upper)) => self.upper = R::upper(upper),
            Some(Record::End) => self.ended = true,
            Some(Record::Data { address, bytes }) => {
                let start = R::start(self.upper, address);
                for (byte, place) in bytes.into_iter().zip(start..) {
                    // Only a faulty reader gets here with a place outside.
                    if let Some(given) = self.given.get_mut(place) {
                        *given = Some(byte);
                    }
                }
            }
            None => {}
        }
    }
}

/// Each line with its line feed; the last one may lack it.
pub fn lines(text: &[u8]) -> impl Iterator<Item = &[u8]> {
    text.split_inclusive(|&byte| byte == b'\n')
}

/// The image, with 255 where nothing was given, or the refusal.
pub fn read_image<R: HexRules>(image_bytes: usize, text: &[u8]) -> Result<Vec<u8>, u32> {
    let mut reading = Reading::new(image_bytes);
    for line in lines(text) {
        if let Some(fault) = R::verdict(&reading, line) {
            return Err(fault);
        }
        reading.take::<R>(line);
    }
    if !reading.ended && R::NEEDS_END {
        return Err(TWICE);
    }
    let byte = |given: &Option<u8>| given.unwrap_or(R::NOT_GIVEN);
    Ok(reading.given.iter().map(byte).collect())
}
