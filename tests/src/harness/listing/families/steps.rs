//! Listings of good movers with their steps changed.

use super::Outcome;
use crate::harness::listing::compare::ListingComparer;
use crate::random::Random;
use crate::simulator::listing::method::{by_method, listing, Entry};
use crate::simulator::listing::request::ListingRequest;

pub fn cases(comparer: &mut ListingComparer, random: &mut Random) -> Outcome {
    let shapes = [
        (1, 1),
        (2, 1),
        (1, 2),
        (2, 2),
        (3, 1),
        (4, 1),
        (3, 2),
        (2, 3),
        (5, 2),
        (4, 4),
        (8, 8),
    ];
    for (n, m) in shapes {
        for _ in 0..if n * m < 16 { 6 } else { 1 } {
            let list = random.permutation(n * m);
            let entries = by_method(n, m, &list);
            let changer = Changer { n, m, list };
            changer.every_step(comparer, &entries, random)?;
            for _ in 0..60 {
                let mut changed = entries.clone();
                for _ in 0..random.between(1, 3) {
                    changer.change(&mut changed, random);
                }
                changer.compare(comparer, &listing(&changed))?;
            }
        }
    }
    Ok(())
}

struct Changer {
    n: usize,
    m: usize,
    list: Vec<u16>,
}

impl Changer {
    fn compare(&self, comparer: &mut ListingComparer, text: &str) -> Outcome {
        comparer.compare(&ListingRequest::new(self.n, self.m, &self.list, text))?;
        Ok(())
    }

    /// Each step left out, repeated, and exchanged with the next, with the
    /// numbers made anew and with the old ones; and the end counts off by one.
    fn every_step(
        &self,
        comparer: &mut ListingComparer,
        entries: &[Entry],
        random: &mut Random,
    ) -> Outcome {
        let text = listing(entries);
        let lines: Vec<&str> = text.split_inclusive('\n').collect();
        for at in 0..entries.len() {
            let mut fewer = entries.to_vec();
            let entry = fewer.remove(at);
            self.compare(comparer, &listing(&fewer))?;
            let mut twice = entries.to_vec();
            twice.insert(at, entry);
            self.compare(comparer, &listing(&twice))?;
            let mut exchanged = entries.to_vec();
            exchanged.swap(at, random.below(entries.len()));
            self.compare(comparer, &listing(&exchanged))?;
            let mut erased = entries.to_vec();
            erased.insert(at, Entry::Erase(random.below(self.n + 1)));
            self.compare(comparer, &listing(&erased))?;
            let mut misnumbered = lines.clone();
            misnumbered.swap(at, (at + 1) % lines.len());
            self.compare(comparer, &misnumbered.concat())?;
        }
        let writes = entries
            .iter()
            .filter(|entry| matches!(entry, Entry::Write(..)));
        let (writes, steps) = (writes.count() as i64, lines[..entries.len()].concat());
        let erases = entries.len() as i64 - writes;
        for (more, less) in [
            (1, 0),
            (0, 1),
            (-1, 0),
            (0, -1),
            (1, -1),
            (256, 0),
            (1 << 32, 0),
        ] {
            let (writes, erases) = (writes + more, erases + less);
            self.compare(comparer, &format!("{steps}end {writes} {erases}\n"))?;
            self.compare(comparer, &format!("{steps}end {erases} {writes}\n"))?;
        }
        Ok(())
    }

    /// One step made another.
    fn change(&self, entries: &mut Vec<Entry>, random: &mut Random) {
        let at = random.below(entries.len());
        let originals = self.n * self.m;
        let any = random.below(originals);
        match (&mut entries[at], random.below(6)) {
            (Entry::Write(_, _, sum), 0 | 1) => match sum.iter().position(|&k| k == any) {
                Some(at) if sum.len() > 1 => {
                    sum.remove(at);
                }
                Some(_) => {}
                None => {
                    sum.push(any);
                    sum.sort();
                }
            },
            (Entry::Write(_, page, _), 2) => *page = random.below(self.m),
            (Entry::Write(block, _, _), 3) | (Entry::Erase(block), _) => {
                *block = random.below(self.n + 1)
            }
            (_, 4) => {
                entries.remove(at);
                if entries.is_empty() {
                    entries.push(Entry::Erase(0));
                }
            }
            _ => {
                let other = random.below(entries.len());
                entries.swap(at, other);
            }
        }
    }
}
