//! Faults in the forms of lines.

use super::{but_for, fault, ListingFault};
use crate::simulator::listing::calls::listing_answer;
use crate::simulator::listing::lines::Sizes;
use crate::simulator::listing::request::{ListingAnswer, ListingRequest};
use crate::simulator::listing::rules::ListingRules;
use crate::simulator::rules::Correct;

pub fn faults() -> Vec<ListingFault> {
    vec![
        fault::<LeadingZeros>("listings: zeros before a number are taken"),
        fault::<Plus>("listings: a sign before a number is taken"),
        fault::<EmptyNumber>("listings: an empty word is 0"),
        fault::<Modulo<32>>("listings: numbers are taken in 32 bits"),
        fault::<Modulo<8>>("listings: numbers are taken in 8 bits"),
        fault::<Modulo<63>>("listings: numbers are taken in 63 bits"),
        fault::<TwoSpaces>("listings: several spaces part words"),
        fault::<SpaceBehind>("listings: a space at the end of a line is taken"),
        fault::<Tabs>("listings: a tab parts words"),
        fault::<CarriageReturn>("listings: a carriage return before the line feed is taken"),
        fault::<Unended>("listings: a last line without a line feed is taken"),
        fault::<AnyStep>("listings: step numbers are not looked at"),
        fault::<FromOne>("listings: steps are counted from 1"),
        fault::<NotFalling>("listings: an original may come twice"),
        fault::<AnyOrder>("listings: originals may come in any order"),
        fault::<NoneNeeded>("listings: a write without originals is taken"),
        fault::<TwoAtMost>("listings: more than two originals are another form"),
        fault::<BlockAbove>("listings: block n + 1 is taken for block n"),
        fault::<BlockN>("listings: block n is outside"),
        fault::<PageAbove>("listings: page m is taken for the last"),
        fault::<LastPage>("listings: the last page is outside"),
        fault::<OriginalAbove>("listings: original n x m is taken for the last"),
        fault::<LastOriginal>("listings: the last original is outside"),
        fault::<FirstBlock>("listings: the spare is outside"),
        fault::<AfterEnd>("listings: lines after the end line are not looked at"),
        fault::<EmptyLines>("listings: empty lines at the end are taken"),
    ]
}

struct Modulo<const BITS: u32>;

impl<const BITS: u32> ListingRules for Modulo<BITS> {
    fn number(word: &[u8]) -> Option<u64> {
        Correct::number(word)?;
        let value = |total: u64, &digit: &u8| {
            let total = total.wrapping_mul(10).wrapping_add(u64::from(digit - b'0'));
            total % (1 << BITS)
        };
        Some(word.iter().fold(0, value))
    }
}

but_for! {
    LeadingZeros {
        fn number(word: &[u8]) -> Option<u64> {
            let zeros = word.iter().take_while(|&&byte| byte == b'0').count();
            match word.get(zeros) {
                Some(byte) if byte.is_ascii_digit() => Correct::number(&word[zeros..]),
                None if zeros > 0 => Some(0),
                _ => Correct::number(word),
            }
        }
    }
    Plus {
        fn number(word: &[u8]) -> Option<u64> {
            Correct::number(word.strip_prefix(b"+").unwrap_or(word))
        }
    }
    EmptyNumber {
        fn number(word: &[u8]) -> Option<u64> {
            if word.is_empty() {
                return Some(0);
            }
            Correct::number(word)
        }
    }
    TwoSpaces {
        fn words(content: &[u8]) -> Vec<&[u8]> {
            let mut words = Correct::words(content);
            let last = words.len() - 1;
            let mut index = 0;
            words.retain(|word| {
                index += 1;
                !word.is_empty() || index == 1 || index == last + 1
            });
            words
        }
    }
    SpaceBehind {
        fn content(line: &[u8]) -> Option<&[u8]> {
            let content = Correct::content(line)?;
            Some(content.strip_suffix(b" ").unwrap_or(content))
        }
    }
    Tabs {
        fn words(content: &[u8]) -> Vec<&[u8]> {
            content.split(|&byte| byte == b' ' || byte == b'\t').collect()
        }
    }
    CarriageReturn {
        fn content(line: &[u8]) -> Option<&[u8]> {
            let content = Correct::content(line)?;
            Some(content.strip_suffix(b"\r").unwrap_or(content))
        }
    }
    Unended {
        fn content(line: &[u8]) -> Option<&[u8]> {
            Some(line.strip_suffix(b"\n").unwrap_or(line))
        }
    }
    AnyStep {
        fn step_fits(_given: u64, _due: usize) -> bool {
            true
        }
    }
    FromOne {
        fn step_fits(given: u64, due: usize) -> bool {
            given == due as u64 + 1
        }
    }
    NotFalling {
        fn rises(before: usize, next: usize) -> bool {
            before <= next
        }
    }
    AnyOrder {
        fn rises(before: usize, next: usize) -> bool {
            before != next
        }
    }
    NoneNeeded {
        fn enough(_count: usize) -> bool {
            true
        }
    }
    TwoAtMost {
        fn enough(count: usize) -> bool {
            (1..=2).contains(&count)
        }
    }
    BlockAbove {
        fn block(number: u64, sizes: &Sizes) -> Option<usize> {
            let above = number == sizes.blocks as u64;
            Correct::block(number - above as u64, sizes)
        }
    }
    BlockN {
        fn block(number: u64, sizes: &Sizes) -> Option<usize> {
            Correct::block(number, sizes).filter(|&block| block + 1 < sizes.blocks)
        }
    }
    FirstBlock {
        fn block(number: u64, sizes: &Sizes) -> Option<usize> {
            Correct::block(number, sizes).filter(|&block| block > 0)
        }
    }
    PageAbove {
        fn page(number: u64, sizes: &Sizes) -> Option<usize> {
            let above = number == sizes.pages as u64;
            Correct::page(number - above as u64, sizes)
        }
    }
    LastPage {
        fn page(number: u64, sizes: &Sizes) -> Option<usize> {
            Correct::page(number, sizes).filter(|&page| page + 1 < sizes.pages)
        }
    }
    OriginalAbove {
        fn original(number: u64, sizes: &Sizes) -> Option<usize> {
            let above = number == sizes.originals as u64;
            Correct::original(number - above as u64, sizes)
        }
    }
    LastOriginal {
        fn original(number: u64, sizes: &Sizes) -> Option<usize> {
            Correct::original(number, sizes).filter(|&original| original + 1 < sizes.originals)
        }
    }
    AfterEnd {
        fn ends() -> bool {
            false
        }
    }
    EmptyLines {
        fn amend(request: &ListingRequest, answer: &mut ListingAnswer) {
            if answer.returned == 13 && request.text.ends_with(b"\n\n") {
                let mut shorter = request.clone();
                shorter.text.pop();
                *answer = listing_answer(&shorter);
            }
        }
    }
}
