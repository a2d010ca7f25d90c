//! Texts that are hardly listings.

use super::Outcome;
use crate::harness::listing::compare::ListingComparer;
use crate::random::{all_permutations, Random};
use crate::simulator::listing::method::{by_copies, by_method, listing, Entry};
use crate::simulator::listing::request::ListingRequest;

/// Every byte of a short listing replaced by every other, put in and taken out;
/// every beginning and every end of it.
pub fn cases(comparer: &mut ListingComparer, random: &mut Random) -> Outcome {
    let turn = [1, 2, 0];
    let texts = [
        (1, 1, vec![0], listing(&by_method(1, 1, &[0]))),
        (2, 1, vec![1, 0], listing(&by_method(2, 1, &[1, 0]))),
        (3, 1, turn.to_vec(), listing(&by_method(3, 1, &turn))),
        (1, 2, vec![1, 0], listing(&by_copies(2, &[0], &[1, 0]))),
        (1, 1, vec![0], "0 E 0\nend 0 1\n".to_string()),
    ];
    for (n, m, list, text) in texts {
        let mut request = ListingRequest::new(n, m, &list, &text);
        let good = request.text.clone();
        for at in 0..=good.len() {
            for byte in 0..=255 {
                if at < good.len() {
                    request.text = good.clone();
                    request.text[at] = byte;
                    comparer.compare(&request)?;
                }
                if b" \n0123456789\r\t\0EWend+-".contains(&byte) {
                    request.text = good.clone();
                    request.text.insert(at, byte);
                    comparer.compare(&request)?;
                }
            }
            if at < good.len() {
                request.text = good.clone();
                request.text.remove(at);
                comparer.compare(&request)?;
            }
            request.text = good[..at].to_vec();
            comparer.compare(&request)?;
            request.text = good[at..].to_vec();
            comparer.compare(&request)?;
        }
    }
    nonsense(comparer, random)
}

fn nonsense(comparer: &mut ListingComparer, random: &mut Random) -> Outcome {
    for _ in 0..3000 {
        let length = random.below(40);
        let bytes = (0..length)
            .map(|_| *random.pick(b"00112 \n\nEWend"))
            .collect();
        let mut request = ListingRequest::new(2, 1, &[1, 0], "");
        request.text = bytes;
        comparer.compare(&request)?;
        request.text = random.bytes(length);
        comparer.compare(&request)?;
    }
    Ok(())
}

/// One number of a listing written otherwise: outside the sizes by one, far
/// outside, with zeros before it, with a sign, as a word.
pub fn forms(comparer: &mut ListingComparer, random: &mut Random) -> Outcome {
    const HUGE: [&str; 9] = [
        "255",
        "256",
        "65536",
        "4294967295",
        "4294967296",
        "18446744073709551615",
        "18446744073709551616",
        "36893488147419103232",
        "100000000000000000000000000000000000000000000000000",
    ];
    for (n, m) in [(1, 1), (2, 1), (3, 2), (4, 4), (11, 2), (64, 1), (1, 64)] {
        let list = random.permutation(n * m);
        let text = listing(&by_method(n, m, &list));
        let words: Vec<&str> = text.split_inclusive([' ', '\n']).collect();
        // Long listings take their time.
        let (first, last) = if n * m < 32 { (40, 12) } else { (9, 4) };
        let near = words.len().min(first);
        let far = words.len() - words.len().min(last);
        for at in (0..near).chain(far..words.len()) {
            let word = words[at].trim_end();
            let parted = &words[at][word.len()..];
            let mut others: Vec<String> = HUGE.map(str::to_string).to_vec();
            others.extend([format!("0{word}"), format!("+{word}"), format!("-{word}")]);
            others.extend([format!(" {word}"), format!("{word} "), format!("{word}\r")]);
            others.extend([
                "".into(),
                "x".into(),
                word.to_lowercase(),
                word.to_uppercase(),
            ]);
            others.extend([n, n + 1, m - 1, m, n * m - 1, n * m].map(|size| size.to_string()));
            // The same in 8, 32 and 64 bits.
            if let Ok(number) = word.parse::<u128>() {
                for bits in [8, 32, 64] {
                    others.push((number + (1 << bits)).to_string());
                }
                others.push((number + 1).to_string());
            }
            for other in others {
                let before = words[..at].concat();
                let behind = words[at + 1..].concat();
                let text = format!("{before}{other}{parted}{behind}");
                comparer.compare(&ListingRequest::new(n, m, &list, &text))?;
            }
        }
    }
    ends(comparer)
}

/// What can stand at the end, and behind it.
fn ends(comparer: &mut ListingComparer) -> Outcome {
    for list in all_permutations(2) {
        for (n, m) in [(2, 1), (1, 2)] {
            let method = by_method(n, m, &list);
            for entries in [vec![], vec![Entry::Erase(0)], method] {
                let text = listing(&entries);
                let lines: Vec<&str> = text.split_inclusive('\n').collect();
                let (end, steps) = lines.split_last().expect("a listing has an end line");
                let steps = steps.concat();
                let next = entries.len() + 1;
                let tails = [
                    "",
                    "\n",
                    end,
                    &end[..end.len() - 1],
                    "end\n",
                    "end 0\n",
                    "end 0 0 0\n",
                    "END 0 0\n",
                    "end  0 0\n",
                    "end 0 0 \n",
                    "end 0 0\r\n",
                    &format!("{end}\n"),
                    &format!("{end}x"),
                    &format!("{end}{end}"),
                    &format!("{end}{next} E 0\n"),
                    &format!("{end}{} E 0\n", next - 1),
                    &format!("{end}{next} E 0"),
                ];
                for tail in tails {
                    let text = format!("{steps}{tail}");
                    comparer.compare(&ListingRequest::new(n, m, &list, &text))?;
                }
            }
        }
    }
    Ok(())
}
