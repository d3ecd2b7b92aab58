//! Numbers that look random and are the same for the same seed on every machine (SplitMix64).

use std::cell::Cell;

/// The state is a cell, so that a choice may stand inside of another.
pub struct Chance(Cell<u64>);

impl Chance {
    pub fn new(seed: u64) -> Self {
        Self(Cell::new(seed))
    }

    pub fn number(&self) -> u64 {
        let state = self.0.get().wrapping_add(0x9e37_79b9_7f4a_7c15);
        self.0.set(state);
        let mixed = (state ^ state >> 30).wrapping_mul(0xbf58_476d_1ce4_e5b9);
        let mixed = (mixed ^ mixed >> 27).wrapping_mul(0x94d0_49bb_1331_11eb);
        mixed ^ mixed >> 31
    }

    pub fn below(&self, limit: u32) -> u32 {
        (self.number() % u64::from(limit)) as u32
    }

    pub fn byte(&self) -> u8 {
        self.number() as u8
    }

    pub fn pair(&self) -> u16 {
        self.number() as u16
    }

    pub fn quad(&self) -> u32 {
        self.number() as u32
    }

    pub fn one_in(&self, count: u32) -> bool {
        self.below(count) == 0
    }

    pub fn pick<T: Copy>(&self, from: &[T]) -> T {
        from[self.below(from.len() as u32) as usize]
    }

    pub fn fill(&self, bytes: &mut [u8]) {
        bytes.fill_with(|| self.byte());
    }
}
