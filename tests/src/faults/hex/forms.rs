//! Faults in what is taken for a record.

use super::{but_for, fault, HexFault};
use crate::simulator::hex::reader::Reading;
use crate::simulator::hex::record::{typed, Fields, Record};
use crate::simulator::hex::rules::HexRules;
use crate::simulator::rules::Correct;

pub fn faults() -> Vec<HexFault> {
    [lines(), types()].into_iter().flatten().collect()
}

fn lines() -> Vec<HexFault> {
    vec![
        fault::<CapitalsOnly>("small digits are refused"),
        fault::<WideDigits>("g is taken for a digit"),
        fault::<MaskedDigits>("a digit is taken with its high bit set"),
        fault::<NoReturn>("a carriage return is refused"),
        fault::<TwoReturns>("two carriage returns are taken"),
        fault::<BlankEnds>("a space before the line feed is taken"),
        fault::<Unended>("a last record without a line feed is taken"),
        fault::<NoChecksum>("the checksum is not looked at"),
        fault::<ChecksumSign>("the checksum may be the sum itself"),
        fault::<EmptyLines>("empty lines are passed over"),
    ]
}

but_for! {
    CapitalsOnly {
        fn digit(byte: u8) -> Option<u8> {
            Correct::digit(byte).filter(|_| !byte.is_ascii_lowercase())
        }
    }
    WideDigits {
        fn digit(byte: u8) -> Option<u8> {
            (byte as char).to_digit(17).map(|digit| digit as u8 % 16)
        }
    }
    MaskedDigits {
        fn digit(byte: u8) -> Option<u8> {
            Correct::digit(byte & 127)
        }
    }
    NoReturn {
        fn without_end(line: &[u8]) -> Option<&[u8]> {
            line.strip_suffix(b"\n")
        }
    }
    TwoReturns {
        fn without_end(line: &[u8]) -> Option<&[u8]> {
            let line = Correct::without_end(line)?;
            Some(line.strip_suffix(b"\r").unwrap_or(line))
        }
    }
    BlankEnds {
        fn without_end(line: &[u8]) -> Option<&[u8]> {
            let line = Correct::without_end(line)?;
            Some(line.strip_suffix(b" ").unwrap_or(line))
        }
    }
    Unended {
        fn without_end(line: &[u8]) -> Option<&[u8]> {
            Correct::without_end(line).or(Some(line))
        }
    }
    NoChecksum {
        fn checksum_fits(_given: u8, _due: u8) -> bool {
            true
        }
    }
    ChecksumSign {
        fn checksum_fits(given: u8, due: u8) -> bool {
            given == due || given == 0u8.wrapping_sub(due)
        }
    }
    EmptyLines {
        fn verdict(reading: &Reading, line: &[u8]) -> Option<u32> {
            let empty = Self::without_end(line).is_some_and(|line| line.is_empty());
            reading.fault::<Self>(line).filter(|_| !empty || reading.ended)
        }
    }
}

fn types() -> Vec<HexFault> {
    vec![
        fault::<OtherType<2>>("type 02 is passed over"),
        fault::<OtherType<3>>("type 03 is passed over"),
        fault::<OtherType<5>>("type 05 is passed over"),
        fault::<EmptyData>("a data record of no byte is taken"),
        fault::<ShortData>("a data record of 255 bytes is refused"),
        fault::<EndAnywhere>("an end record at another address is taken"),
        fault::<EndWithBytes>("an end record with bytes is taken"),
        fault::<UpperAnywhere>("type 04 at another address is taken"),
        fault::<UpperOfThree>("type 04 with three bytes is taken"),
        fault::<LowTypeBits>("the high digit of the type is not looked at"),
    ]
}

/// Such records do nothing.
struct OtherType<const KIND: u8>;

impl<const KIND: u8> HexRules for OtherType<KIND> {
    fn record(fields: Fields) -> Option<Record> {
        if fields.kind == KIND {
            return Some(Record::Data {
                address: 0,
                bytes: vec![],
            });
        }
        typed(fields)
    }
}

but_for! {
    EmptyData {
        fn record(fields: Fields) -> Option<Record> {
            match fields.kind == 0 && fields.data.is_empty() {
                true => Some(Record::Data { address: 0, bytes: vec![] }),
                false => typed(fields),
            }
        }
    }
    ShortData {
        fn record(fields: Fields) -> Option<Record> {
            typed(fields).filter(|record| !matches!(record, Record::Data { bytes, .. } if bytes.len() == 255))
        }
    }
    EndAnywhere {
        fn record(mut fields: Fields) -> Option<Record> {
            if fields.kind == 1 {
                fields.address = 0;
            }
            typed(fields)
        }
    }
    EndWithBytes {
        fn record(mut fields: Fields) -> Option<Record> {
            if fields.kind == 1 {
                fields.data.clear();
            }
            typed(fields)
        }
    }
    UpperAnywhere {
        fn record(mut fields: Fields) -> Option<Record> {
            if fields.kind == 4 {
                fields.address = 0;
            }
            typed(fields)
        }
    }
    UpperOfThree {
        fn record(mut fields: Fields) -> Option<Record> {
            if fields.kind == 4 {
                fields.data.truncate(2);
            }
            typed(fields)
        }
    }
    LowTypeBits {
        fn record(fields: Fields) -> Option<Record> {
            typed(Fields { kind: fields.kind % 16, ..fields })
        }
    }
}
