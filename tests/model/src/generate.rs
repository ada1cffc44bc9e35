//! Seeded makers of input: console scripts, trails and payload scripts.
//!
//! A maker runs its own output as it goes, so that it knows what is live and
//! can aim at the edges; the input it prints stands by itself.

mod commands;
pub use commands::written;
mod evening;
mod payloads;
mod script;
mod trail;

pub use evening::{asks, evening, met, Ask, Evening};
pub use payloads::payloads;
pub use script::script;
pub use trail::journal;

use crate::tlv::Version;

/// The splitmix generator: small, and the same everywhere.
pub struct Rng {
    state: u64,
    /// The share of commands, in percent, that have what is to be skipped in
    /// them. Only some seeds have any, so that the others stay as they are.
    skipping: u64,
    /// The share of commands, in percent, of tables 20 and 30 and of type 2.
    routing: u64,
}

impl Rng {
    pub fn new(seed: u64) -> Self {
        Rng {
            state: seed,
            skipping: 0,
            routing: 45,
        }
    }

    /// The same for a trail of a version: one that has no routes has few commands
    /// for them, all of them refused.
    pub fn of_version(mut self, version: Version) -> Self {
        if !version.routes() {
            self.routing = 12;
        }
        self
    }

    /// The same with things to be skipped, where the seed is one of those.
    pub fn skipping(mut self, whether: bool) -> Self {
        self.skipping = if whether { 40 } else { 0 };
        self
    }

    pub fn next(&mut self) -> u64 {
        self.state = self.state.wrapping_add(0x9e37_79b9_7f4a_7c15);
        let mut z = self.state;
        z = (z ^ (z >> 30)).wrapping_mul(0xbf58_476d_1ce4_e5b9);
        z = (z ^ (z >> 27)).wrapping_mul(0x94d0_49bb_1331_11eb);
        z ^ (z >> 31)
    }

    /// A number from `low` to `high`, both included.
    pub fn range(&mut self, low: u64, high: u64) -> u64 {
        let choices = u128::from(high - low) + 1;
        low + ((u128::from(self.next()) * choices) >> 64) as u64
    }

    fn index(&mut self, length: usize) -> usize {
        self.range(0, length as u64 - 1) as usize
    }

    fn chance(&mut self, percent: u64) -> bool {
        self.range(1, 100) <= percent
    }

    fn pick<T: Clone>(&mut self, from: &[T]) -> T {
        from[self.index(from.len())].clone()
    }

    fn shuffle<T>(&mut self, items: &mut [T]) {
        for last in (1..items.len()).rev() {
            items.swap(last, self.range(0, last as u64) as usize);
        }
    }

    fn bytes(&mut self, length: usize) -> Vec<u8> {
        (0..length).map(|_| self.next() as u8).collect()
    }
}
