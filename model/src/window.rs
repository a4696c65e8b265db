//! A window of accepted numbers: every number below low, and those in a set above it.
use std::collections::BTreeSet;

/// Numbers have 24 bits.
pub const NUMBERS: u32 = 1 << 24;

/// "`insert` takes index low + 2,048 too."
pub const REACH: u32 = 2048;

/// "number lists up to 2,048"
pub const LIST: usize = 2048;

#[derive(Clone, Default, PartialEq, Debug)]
pub struct Window {
    /// "Low is the smallest number never accepted."
    pub low: u32,
    /// The accepted numbers above low.
    pub above: BTreeSet<u32>,
}

impl Window {
    pub fn accepted(&self, n: u32) -> bool {
        n < self.low || self.above.contains(&n)
    }

    /// "Window insert. 13 number of 2^24 or more; 4; 5."
    pub fn insert(&mut self, n: u32) -> Result<(), u8> {
        if n >= NUMBERS {
            return Err(13);
        }
        if self.accepted(n) {
            return Err(4);
        }
        if n > self.low + REACH {
            return Err(5);
        }
        self.above.insert(n);
        while self.above.remove(&self.low) {
            self.low += 1;
        }
        Ok(())
    }

    /// "Missing numbers are the datagram numbers never accepted below the highest accepted; none before the first."
    pub fn missing(&self) -> Vec<u32> {
        match self.above.last() {
            None => Vec::new(),
            Some(&highest) => (self.low..highest).filter(|n| !self.accepted(*n)).collect(),
        }
    }
}
