//! Repeatable random numbers: the same seed gives the same cases.

pub struct Random(u64);

impl Random {
    pub fn new(seed: u64) -> Random {
        Random(seed)
    }

    /// SplitMix64.
    pub fn number(&mut self) -> u64 {
        self.0 = self.0.wrapping_add(0x9e37_79b9_7f4a_7c15);
        let mut z = self.0;
        z = (z ^ (z >> 30)).wrapping_mul(0xbf58_476d_1ce4_e5b9);
        z = (z ^ (z >> 27)).wrapping_mul(0x94d0_49bb_1331_11eb);
        z ^ (z >> 31)
    }

    pub fn below(&mut self, limit: usize) -> usize {
        (self.number() % limit as u64) as usize
    }

    /// A number from `low` to `high`, both included.
    pub fn between(&mut self, low: usize, high: usize) -> usize {
        low + self.below(high - low + 1)
    }

    pub fn one_in(&mut self, n: usize) -> bool {
        self.below(n) == 0
    }

    pub fn byte(&mut self) -> u8 {
        self.number() as u8
    }

    pub fn bytes(&mut self, count: usize) -> Vec<u8> {
        (0..count).map(|_| self.byte()).collect()
    }

    pub fn pick<'a, T>(&mut self, choices: &'a [T]) -> &'a T {
        &choices[self.below(choices.len())]
    }

    /// A permutation that keeps some of its numbers, and moves about as many.
    pub fn keeping(&mut self, len: usize) -> Vec<u16> {
        let mut list: Vec<u16> = (0..len as u16).collect();
        let moved: Vec<usize> = (0..len).filter(|_| self.one_in(2)).collect();
        for (from, to) in self.permutation(moved.len()).into_iter().enumerate() {
            list[moved[from]] = moved[to as usize] as u16;
        }
        list
    }

    /// The list with pages to throw away: in half the lists none, else one,
    /// some, most or all.
    pub fn dropping(&mut self, list: Vec<u16>) -> Vec<u16> {
        match self.one_in(2) {
            true => self.with_drops(list),
            false => list,
        }
    }

    /// The same with at least one such page.
    pub fn with_drops(&mut self, mut list: Vec<u16>) -> Vec<u16> {
        let at = self.below(list.len());
        list[at] = u16::MAX;
        let of_four = *self.pick(&[0, 0, 1, 1, 3, 4]);
        for entry in &mut list {
            if self.below(4) < of_four {
                *entry = u16::MAX;
            }
        }
        list
    }

    pub fn permutation(&mut self, len: usize) -> Vec<u16> {
        let mut list: Vec<u16> = (0..len as u16).collect();
        for last in (1..len).rev() {
            list.swap(last, self.below(last + 1));
        }
        list
    }
}

/// The seed from the environment variable MOVER_SEED, else 1.
pub fn seed_from_environment() -> u64 {
    number_from_environment("MOVER_SEED")
}

/// The environment variable MOVER_ROUNDS, else 1: how much longer than in the
/// gate the random lists of events are to be.
pub fn rounds_from_environment() -> u64 {
    number_from_environment("MOVER_ROUNDS")
}

fn number_from_environment(name: &str) -> u64 {
    match std::env::var(name) {
        Ok(text) => text
            .parse()
            .unwrap_or_else(|_| panic!("{name} must be a decimal number")),
        Err(_) => 1,
    }
}

/// All permutations of 0 to len - 1 in ascending order.
pub fn all_permutations(len: usize) -> Vec<Vec<u16>> {
    let mut found = vec![vec![]];
    for _ in 0..len {
        found = found
            .iter()
            .flat_map(|begun| extensions(begun, len))
            .collect();
    }
    found
}

/// All lists of this many pages: those without drops, and those with drops, or
/// where there are more than `few` pages one of these for each without.
pub fn small_lists(len: usize, few: usize, random: &mut Random) -> Vec<Vec<u16>> {
    let mut lists = all_permutations(len);
    let dropping = match len <= few {
        true => all_with_drops(len),
        false => {
            let with_drops = |list: &Vec<u16>| random.with_drops(list.clone());
            lists.iter().map(with_drops).collect()
        }
    };
    lists.extend(dropping);
    lists
}

/// All lists of this many pages that drop at least one, each place named once at
/// most.
pub fn all_with_drops(len: usize) -> Vec<Vec<u16>> {
    let mut found = vec![vec![]];
    for _ in 0..len {
        found = found
            .iter()
            .flat_map(|begun: &Vec<u16>| {
                let dropped = [&begun[..], &[u16::MAX]].concat();
                extensions(begun, len).into_iter().chain([dropped])
            })
            .collect();
    }
    found.retain(|list| list.contains(&u16::MAX));
    found
}

fn extensions(begun: &[u16], len: usize) -> Vec<Vec<u16>> {
    (0..len as u16)
        .filter(|next| !begun.contains(next))
        .map(|next| [begun, &[next]].concat())
        .collect()
}
