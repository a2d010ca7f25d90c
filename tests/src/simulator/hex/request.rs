//! One HEX call with everything it is given, and its answer.

use crate::simulator::sizes::Sizes;
use std::fmt;

#[derive(Clone, Copy, Debug, PartialEq, Eq)]
pub enum HexCall {
    Read,
    Write,
}

#[derive(Clone, Copy, Debug, PartialEq, Eq)]
pub enum HexPart {
    Text,
    Store,
    Marks,
}

pub const HEX_PARTS: [HexPart; 3] = [HexPart::Text, HexPart::Store, HexPart::Marks];

#[derive(Clone, Debug, Default, PartialEq)]
pub struct HexParts {
    pub text: Vec<u8>,
    pub store: Vec<u8>,
    pub marks: Vec<u8>,
}

impl HexParts {
    pub fn get(&self, part: HexPart) -> &Vec<u8> {
        match part {
            HexPart::Text => &self.text,
            HexPart::Store => &self.store,
            HexPart::Marks => &self.marks,
        }
    }

    pub fn get_mut(&mut self, part: HexPart) -> &mut Vec<u8> {
        match part {
            HexPart::Text => &mut self.text,
            HexPart::Store => &mut self.store,
            HexPart::Marks => &mut self.marks,
        }
    }
}

/// The sizes have s = 0: the calls do not take it, and an image is at rest
/// with mark 0.
#[derive(Clone, Debug, PartialEq)]
pub struct HexRequest {
    pub call: HexCall,
    pub sizes: Sizes,
    pub parts: HexParts,
}

impl HexRequest {
    /// The writing of a store at rest, over a text.
    pub fn write_at_rest(sizes: Sizes, image: &[u8], text: Vec<u8>) -> HexRequest {
        let spare = vec![255; sizes.spare_bytes()];
        let marks = [vec![255; sizes.pages()], vec![0; sizes.originals()]];
        HexRequest {
            call: HexCall::Write,
            sizes,
            parts: HexParts {
                text,
                store: [&spare[..], image].concat(),
                marks: marks.concat(),
            },
        }
    }
}

#[derive(Clone, Debug, PartialEq)]
pub struct HexAnswer {
    pub returned: u32,
    pub parts: HexParts,
}

impl Sizes {
    /// The bytes of the data blocks.
    pub fn image_bytes(&self) -> usize {
        self.originals() * self.bytes()
    }

    /// Where the image starts in the store.
    pub fn spare_bytes(&self) -> usize {
        self.pages() * self.bytes()
    }
}

/// Printed with the text as it reads; store and marks by their lengths and
/// first bytes.
impl fmt::Display for HexRequest {
    fn fmt(&self, out: &mut fmt::Formatter) -> fmt::Result {
        writeln!(out, "HEX {:?} of {:?}", self.call, self.sizes)?;
        for part in [HexPart::Store, HexPart::Marks] {
            let bytes = self.parts.get(part);
            let first = &bytes[..bytes.len().min(64)];
            writeln!(out, "{part:?}, {} bytes: {first:?} ..", bytes.len())?;
        }
        let text = &self.parts.text;
        let first = &text[..text.len().min(4096)];
        write!(out, "text, {} bytes:", text.len())?;
        for line in first.split_inclusive(|&byte| byte == b'\n') {
            write!(out, "\n    {:?}", String::from_utf8_lossy(line))?;
        }
        Ok(())
    }
}
