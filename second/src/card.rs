//! The registers of two halves, and their two elementary instructions.

use crate::fault;

#[derive(Clone, Copy, Debug, Default, PartialEq, Eq)]
pub struct Pair {
    pub first: u32,
    pub second: u32,
}

impl Pair {
    pub const ZERO: Pair = Pair { first: 0, second: 0 };

    pub fn new(first: u32, second: u32) -> Pair {
        Pair { first, second }
    }

    /// Both halves become `new`'s, if its first half is at least this one's.
    #[inline]
    pub fn max_write<const F: u8>(&mut self, new: Pair) {
        let wins =
            if F == fault::STRICT_MAX_WRITE { new.first > self.first } else { new.first >= self.first };
        if wins {
            *self = new;
        }
    }

    /// The first half becomes the larger of itself and `first`; the second stays.
    #[inline]
    pub fn half_max(&mut self, first: u32) {
        self.first = self.first.max(first);
    }
}

/// The second half of P: the station above its count, 16 bits each.
#[inline]
pub fn pid_and_count(pid: u8, c: u32) -> u32 {
    u32::from(pid) << 16 | c & 0xffff
}

#[inline]
pub fn pid_of(second: u32) -> usize {
    (second >> 16) as usize
}

#[inline]
pub fn count_of(second: u32) -> u32 {
    second & 0xffff
}
