//! The sizes of a store, and where a page lies in it.

/// The four numbers that every call gets, as the caller gave them.
///
/// A "letter" is a generation tag: a page written in an earlier pass carries
/// another tag than one written in this pass. `s` is the tag at rest.
#[derive(Clone, Copy, Debug, PartialEq, Eq)]
pub struct Sizes {
    pub n: u32,
    pub m: u32,
    pub page_bytes: u32,
    pub s: u32,
}

/// The mark of a page that is not written.
pub const UNWRITTEN: u8 = 255;

impl Sizes {
    pub fn data_blocks(&self) -> usize {
        self.n as usize
    }

    pub fn pages(&self) -> usize {
        self.m as usize
    }

    pub fn bytes(&self) -> usize {
        self.page_bytes as usize
    }

    pub fn originals(&self) -> usize {
        self.data_blocks() * self.pages()
    }

    pub fn slots(&self) -> usize {
        (self.data_blocks() + 1) * self.pages()
    }

    /// The steps of the whole move; also the last place.
    pub fn steps(&self) -> usize {
        2 * self.data_blocks() * (self.pages() + 1)
    }

    /// The tag that comes `later` generations after the one at rest.
    pub fn letter(&self, later: u32) -> u8 {
        ((self.s + later) % 3) as u8
    }

    pub fn slot(&self, block: usize, page: usize) -> usize {
        block * self.pages() + page
    }

    /// The block where a page number of the list lies, 1 to n.
    pub fn block_of(&self, number: usize) -> usize {
        number / self.pages() + 1
    }

    pub fn page_of(&self, number: usize) -> usize {
        number % self.pages()
    }

    pub fn slot_of(&self, number: usize) -> usize {
        self.slot(self.block_of(number), self.page_of(number))
    }
}
