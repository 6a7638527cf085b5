//! What several tests use.

// Each test is a program of its own, and none uses all of this.
#![allow(dead_code)]

use second::ROW;

pub type Row = [u32; ROW];

/// The root's parent.
pub const NONE: u32 = u32::MAX;
/// What a table holds before a call.
pub const RUBBISH: u32 = 0xDEAD_BEEF;

/// A fixed sequence of numbers that follow no rule (xorshift).
pub struct Numbers(pub u64);

impl Numbers {
    pub fn below(&mut self, bound: u64) -> u64 {
        self.0 ^= self.0 << 13;
        self.0 ^= self.0 >> 7;
        self.0 ^= self.0 << 17;
        (self.0 >> 16) % bound
    }

    /// The same for an index.
    pub fn index(&mut self, bound: usize) -> usize {
        self.below(bound as u64) as usize
    }

    pub fn one_of<'a>(&mut self, list: &[&'a str]) -> &'a str {
        list[self.index(list.len())]
    }
}
