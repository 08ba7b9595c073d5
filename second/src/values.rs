//! The values of a random run: a few numbers in a ring, somewhere among those of 32 bits.

use crate::random::Random;

#[derive(Clone, Copy)]
pub struct Ring {
    base: u32,
    span: usize,
}

impl Ring {
    pub fn new(random: &mut Random, spans: &[usize]) -> Ring {
        let anywhere = random.next() as u32;
        let base = random.pick(&[0, 0, 0, 1, 9, u32::MAX - 3, u32::MAX, anywhere]);
        Ring { base, span: random.pick(spans) }
    }

    pub fn one(&self, random: &mut Random) -> u32 {
        self.base.wrapping_add(random.below(self.span) as u32)
    }

    /// Another value of the ring than `value`, which is one of it; the next one mostly where there are more.
    pub fn other(&self, random: &mut Random, value: u32) -> u32 {
        let at = value.wrapping_sub(self.base) as usize;
        let by = if random.once_in(2) { 1 } else { random.between(1, self.span - 1) };
        self.base.wrapping_add(((at + by) % self.span) as u32)
    }

    /// The value after `value`, or after the last one a value out of the ring.
    pub fn after(&self, value: u32) -> u32 {
        self.base.wrapping_add((value.wrapping_sub(self.base) + 1) % (self.span as u32 + 1))
    }
}
