//! A small random number generator (SplitMix64).

use std::ops::RangeInclusive;

/// Random numbers that a seed determines.
#[derive(Clone, Debug)]
pub struct Random {
    state: u64,
}

/// Words at which something tends to change.
const EDGES: [u32; 14] = [
    0,
    1,
    2,
    3,
    15,
    16,
    255,
    256,
    16_383,
    16_384,
    0x7fff_ffff,
    0x8000_0000,
    0xffff_fffe,
    0xffff_ffff,
];

impl Random {
    /// The numbers of a seed.
    pub fn new(seed: u64) -> Self {
        Random { state: seed }
    }

    /// Any number.
    pub fn number(&mut self) -> u64 {
        self.state = self.state.wrapping_add(0x9e37_79b9_7f4a_7c15);
        let mut number = self.state;
        number = (number ^ (number >> 30)).wrapping_mul(0xbf58_476d_1ce4_e5b9);
        number = (number ^ (number >> 27)).wrapping_mul(0x94d0_49bb_1331_11eb);
        number ^ (number >> 31)
    }

    /// A number below `limit`, 0 if the limit is 0.
    pub fn below(&mut self, limit: usize) -> usize {
        (self.number() % limit.max(1) as u64) as usize
    }

    /// A word of a range.
    pub fn within(&mut self, range: RangeInclusive<u32>) -> u32 {
        let span = u64::from(*range.end()) - u64::from(*range.start()) + 1;
        range.start() + (self.number() % span) as u32
    }

    /// True `part` times of `whole`.
    pub fn chance(&mut self, part: usize, whole: usize) -> bool {
        self.below(whole) < part
    }

    /// A byte.
    pub fn byte(&mut self) -> u8 {
        self.number() as u8
    }

    /// A word: small, at an edge, or any.
    pub fn word(&mut self) -> u32 {
        match self.below(4) {
            0 => *self.pick(&EDGES),
            1 | 2 => self.below(64) as u32,
            _ => self.number() as u32,
        }
    }

    /// One of some things, of which there is at least one.
    pub fn pick<'a, T>(&mut self, things: &'a [T]) -> &'a T {
        &things[self.below(things.len())]
    }

    /// Puts things into a random order.
    pub fn shuffle<T>(&mut self, things: &mut [T]) {
        for last in (1..things.len()).rev() {
            things.swap(last, self.below(last + 1));
        }
    }
}
