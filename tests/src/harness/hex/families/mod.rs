//! The families of HEX cases, in the order of the comparison.

mod biggest;
mod bytes;
mod lengths;
mod places;
mod records;
mod writing;

use super::compare::HexComparer;
use crate::random::Random;

pub type Outcome = Result<(), String>;

pub struct Family {
    pub name: &'static str,
    pub cases: fn(&mut HexComparer, &mut Random) -> Outcome,
}

macro_rules! families {
    ($($name:literal: $cases:path,)*) => {
        pub static FAMILIES: &[Family] = &[$(Family {
            name: $name,
            cases: $cases,
        },)*];
    };
}

families! {
    "HEX sizes and lengths": lengths::cases,
    "HEX texts worked by hand": bytes::worked,
    "HEX texts written": writing::cases,
    "stores that have no HEX text": writing::refused,
    "HEX texts in every form": records::forms,
    "HEX texts with one flaw": records::one_flaw,
    "HEX records with two flaws": records::two_on_one_record,
    "two flawed HEX records": records::two_on_two_records,
    "HEX texts with something after the end": records::after_the_end,
    "HEX texts with each byte changed": bytes::each_byte,
    "HEX texts cut short": bytes::cut_short,
    "HEX texts of nonsense": bytes::nonsense,
    "two HEX records anywhere": places::two_records,
    "HEX records at the end of a span": places::over_a_span,
    "HEX records of some spans": places::wide,
    "HEX bytes given twice, far apart": places::far_apart,
    "HEX texts of the biggest image": biggest::cases,
}
