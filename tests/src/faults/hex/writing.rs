//! Faults in the text that is written.

use super::{but_for, fault, HexFault};
use crate::simulator::hex::calls::hex_answer;
use crate::simulator::hex::request::{HexAnswer, HexCall, HexRequest};
use crate::simulator::hex::rules::HexRules;
use crate::simulator::hex::writer::line;

pub fn faults() -> Vec<HexFault> {
    vec![
        fault::<LowerCase>("the HEX text is in small letters"),
        fault::<UpperAtFirst>("type 04 is written before the first span"),
        fault::<NoUpper>("type 04 is never written"),
        fault::<FirstUpperOnly>("type 04 is written once"),
        fault::<LongerRecords>("records of 32 bytes are written"),
        fault::<AddressOfData>("the address is counted in records"),
        fault::<ChecksumOfData>("the written checksum leaves out the type"),
        fault::<FromTheSpare>("the HEX image starts at the spare"),
        fault::<PaddedEnd>("the last record's bytes are those before it"),
    ]
}

but_for! {
    LowerCase {
        fn written(kind: u8, address: u16, data: Vec<u8>) -> Vec<u8> {
            line(kind, address, data).to_ascii_lowercase()
        }
    }
    UpperAtFirst {
        fn upper_is_written(_upper: usize) -> bool {
            true
        }
    }
    NoUpper {
        fn upper_is_written(_upper: usize) -> bool {
            false
        }
    }
    FirstUpperOnly {
        fn upper_is_written(upper: usize) -> bool {
            upper == 1
        }
    }
    LongerRecords {
        const BYTES_A_RECORD: usize = 32;
    }
    AddressOfData {
        fn written(kind: u8, address: u16, data: Vec<u8>) -> Vec<u8> {
            line(kind, address / 16, data)
        }
    }
    ChecksumOfData {
        fn written(kind: u8, address: u16, data: Vec<u8>) -> Vec<u8> {
            let sum = line(0, address, data.clone());
            let mut line = line(kind, address, data);
            let end = line.len() - 3;
            line[end..].copy_from_slice(&sum[end..]);
            line
        }
    }
    FromTheSpare {
        fn amend(request: &HexRequest, answer: &mut HexAnswer) {
            if request.call == HexCall::Write && answer.returned == 0 {
                let mut other = request.clone();
                let start = request.sizes.spare_bytes();
                other.parts.store[start..].copy_from_slice(&request.parts.store[..request.sizes.image_bytes()]);
                answer.parts.text = hex_answer(&other).parts.text;
            }
        }
    }
    PaddedEnd {
        fn written(kind: u8, address: u16, mut data: Vec<u8>) -> Vec<u8> {
            if kind == 0 && data.len() < 16 {
                data[0] = data[data.len() - 1];
            }
            line(kind, address, data)
        }
    }
}
