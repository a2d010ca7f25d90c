//! Lent memory and returned numbers, with guards around them.

/// Odd, so that a part does not start at an even address.
const GUARD: usize = 61;
const GUARD_BYTE: u8 = 0xc3;

/// A lent part inside a buffer whose both ends must stay as they are.
pub struct Lent {
    buffer: Vec<u8>,
    guard: u8,
}

impl Lent {
    pub fn new(part: &[u8]) -> Lent {
        Lent::within(part, GUARD_BYTE)
    }

    /// With a byte around it that would tell if it were read.
    pub fn within(part: &[u8], guard: u8) -> Lent {
        let around = [guard; GUARD];
        Lent {
            buffer: [&around[..], part, &around[..]].concat(),
            guard,
        }
    }

    /// A part that the call does not take.
    pub fn none() -> Lent {
        Lent {
            buffer: vec![],
            guard: GUARD_BYTE,
        }
    }

    pub fn length(&self) -> u64 {
        (self.buffer.len() - 2 * GUARD) as u64
    }

    pub fn pointer(&mut self) -> *mut u8 {
        self.buffer[GUARD..].as_mut_ptr()
    }

    /// The part after the call, or what happened to its guards.
    pub fn take(mut self, name: &str) -> Result<Vec<u8>, String> {
        if self.buffer.is_empty() {
            return Ok(vec![]);
        }
        let end = self.buffer.len() - GUARD;
        let around = [self.guard; GUARD];
        if self.buffer[..GUARD] != around {
            return Err(format!("a byte before the part {name} was written"));
        }
        if self.buffer[end..] != around {
            return Err(format!("a byte behind the part {name} was written"));
        }
        self.buffer.truncate(end);
        self.buffer.drain(..GUARD);
        Ok(self.buffer)
    }
}

/// No answer of a call that is carried out or refused.
const JUNK: u32 = 0xdead_beef;

/// Returned numbers, junk at first, with junk between them as guards.
pub struct Outs {
    numbers: [u32; 15],
}

impl Outs {
    pub fn junk() -> Outs {
        Outs {
            numbers: [JUNK; 15],
        }
    }

    pub fn pointers(&mut self) -> [*mut u32; 7] {
        let start = self.numbers.as_mut_ptr();
        [1, 3, 5, 7, 9, 11, 13].map(|index| start.wrapping_add(index))
    }

    pub fn take(self) -> Result<[u32; 7], String> {
        let guards = self.numbers.iter().step_by(2);
        if guards.into_iter().any(|&number| number != JUNK) {
            return Err("memory beside a returned number was written".into());
        }
        Ok([1, 3, 5, 7, 9, 11, 13].map(|index| self.numbers[index]))
    }
}
