//! RAM and flash as they are lent. Addresses are whole numbers here and do not wrap.

use crate::rules::PAGE;

/// Where it starts and how long it is.
#[derive(Clone, Copy)]
pub struct Area {
    pub start: u32,
    pub len: u64,
}

impl Area {
    /// Whole pages.
    pub fn pages(self) -> u64 {
        self.len / PAGE
    }

    pub fn from(self) -> u64 {
        u64::from(self.start)
    }

    pub fn to(self) -> u64 {
        self.from() + self.len
    }

    /// Whether it has an address from `from` up to `to`. An empty area has none.
    pub fn shares(self, from: u64, to: u64) -> bool {
        self.from().max(from) < self.to().min(to)
    }
}

/// Its bytes and their physical start.
#[derive(Clone, Copy)]
pub struct Memory<'a> {
    pub bytes: &'a [u8],
    pub start: u32,
}

impl<'a> Memory<'a> {
    pub fn area(self) -> Area {
        Area {
            start: self.start,
            len: self.bytes.len() as u64,
        }
    }

    /// Where physical page `number` is among the bytes; none if it is not wholly inside.
    pub fn place(self, number: u32) -> Option<usize> {
        let from = (u64::from(number) * PAGE).checked_sub(u64::from(self.start))?;
        (from + PAGE <= self.bytes.len() as u64).then_some(from as usize)
    }

    /// The 4,096 bytes from `at` on.
    pub fn page(self, at: usize) -> &'a [u8] {
        &self.bytes[at..at + PAGE as usize]
    }
}
