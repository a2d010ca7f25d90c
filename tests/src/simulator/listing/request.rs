//! One listing with the sizes and the list it is for, and the answer.

use std::fmt;

#[derive(Clone, Debug, PartialEq)]
pub struct ListingRequest {
    pub n: u32,
    pub m: u32,
    /// As lent, two bytes an entry.
    pub list: Vec<u8>,
    pub text: Vec<u8>,
}

/// The numbers returned. The line is that of the first fault, from 1, and 0
/// where no line is at fault.
#[derive(Clone, Copy, Debug, Default, PartialEq)]
pub struct ListingAnswer {
    pub returned: u32,
    pub line: u32,
    pub accepted: u32,
}

impl ListingRequest {
    pub fn new(n: usize, m: usize, list: &[u16], text: &str) -> ListingRequest {
        ListingRequest {
            n: n as u32,
            m: m as u32,
            list: list.iter().flat_map(|entry| entry.to_le_bytes()).collect(),
            text: text.as_bytes().to_vec(),
        }
    }

    /// For sizes in their ranges.
    pub fn originals(&self) -> usize {
        self.n as usize * self.m as usize
    }

    pub fn entries(&self) -> Vec<usize> {
        let pairs = self.list.chunks_exact(2);
        pairs
            .map(|pair| pair[0] as usize + 256 * pair[1] as usize)
            .collect()
    }
}

impl fmt::Display for ListingRequest {
    fn fmt(&self, out: &mut fmt::Formatter) -> fmt::Result {
        writeln!(out, "listing for n = {}, m = {}", self.n, self.m)?;
        writeln!(out, "list, {} bytes: {:?}", self.list.len(), self.entries())?;
        write!(out, "text, {} bytes:", self.text.len())?;
        for line in self.text.split_inclusive(|&byte| byte == b'\n') {
            write!(out, "\n    {:?}", String::from_utf8_lossy(line))?;
        }
        Ok(())
    }
}
