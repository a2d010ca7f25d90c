//! One record: its line of text, and what it says.

use super::rules::HexRules;

/// A record of one of the three types.
#[derive(Clone, Debug, PartialEq)]
pub enum Record {
    Data { address: usize, bytes: Vec<u8> },
    End,
    Upper(usize),
}

/// A record as its fields, whatever its type.
#[derive(Clone, Debug, PartialEq)]
pub struct Fields {
    pub address: u16,
    pub kind: u8,
    pub data: Vec<u8>,
}

impl Fields {
    /// All bytes but the checksum.
    fn bytes(&self) -> Vec<u8> {
        let count = self.data.len() as u8;
        let [high, low] = self.address.to_be_bytes();
        [&[count, high, low, self.kind], &self.data[..]].concat()
    }

    /// The line as the writer has it.
    pub fn line(&self) -> Vec<u8> {
        let mut bytes = self.bytes();
        bytes.push(checksum(&bytes));
        let digits: String = bytes.iter().map(|byte| format!("{byte:02X}")).collect();
        format!(":{digits}\n").into_bytes()
    }
}

/// What makes the sum of all bytes of a record 0, modulo 256.
pub fn checksum(bytes: &[u8]) -> u8 {
    let sum: u32 = bytes.iter().map(|&byte| byte as u32).sum();
    (256 - sum % 256) as u8
}

/// A line with its line feed, if it has one, as a record.
pub fn parse<R: HexRules>(line: &[u8]) -> Option<Record> {
    let digits = R::without_end(line)?.strip_prefix(b":")?;
    let bytes = bytes_of::<R>(digits)?;
    let (&given, rest) = bytes.split_last()?;
    let [count, high, low, kind, data @ ..] = rest else {
        return None;
    };
    if *count as usize != data.len() || !R::checksum_fits(given, checksum(rest)) {
        return None;
    }
    R::record(Fields {
        address: u16::from_be_bytes([*high, *low]),
        kind: *kind,
        data: data.to_vec(),
    })
}

/// Two digits a byte.
fn bytes_of<R: HexRules>(digits: &[u8]) -> Option<Vec<u8>> {
    if digits.len() % 2 != 0 {
        return None;
    }
    let pair = |pair: &[u8]| Some(16 * R::digit(pair[0])? + R::digit(pair[1])?);
    digits.chunks(2).map(pair).collect()
}

/// The types that are taken, with what each must hold.
pub fn typed(fields: Fields) -> Option<Record> {
    let Fields {
        address,
        kind,
        data,
    } = fields;
    match (kind, &data[..]) {
        (0, [_, ..]) => Some(Record::Data {
            address: address as usize,
            bytes: data,
        }),
        (1, []) if address == 0 => Some(Record::End),
        (4, &[high, low]) if address == 0 => {
            Some(Record::Upper(u16::from_be_bytes([high, low]) as usize))
        }
        _ => None,
    }
}
