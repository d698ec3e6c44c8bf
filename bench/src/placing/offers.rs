//! The bridges on offer in each slot, and the capacities that follow from them.

use crate::head::BRIDGES;

/// How many bridges each slot offers, turned on its side: word k holds the slots that offer more than k.
/// So capacities are sums of counted ones, and one word operation adds a bridge in many slots at once.
#[derive(Clone, Copy, Debug, Default, PartialEq, Eq)]
pub struct Offers {
    more_than: [u64; BRIDGES],
}

/// The capacity for r bridges at a time, r from 0 to 8.
pub type Capacities = [i32; BRIDGES + 1];

impl Offers {
    /// One more bridge in each of these slots, none of which may offer eight already.
    pub fn add(&mut self, slots: u64) {
        let mut raised = slots;
        for word in &mut self.more_than {
            let next = raised & *word;
            *word |= raised;
            raised = next;
        }
    }

    /// Sets what one slot offers, from 0 to 8 bridges.
    pub fn set(&mut self, slot: usize, bridges: u32) {
        for (k, word) in self.more_than.iter_mut().enumerate() {
            let offers = u64::from((k as u32) < bridges);
            *word = *word & !(1 << slot) | offers << slot;
        }
    }

    /// Leaves no slot more than so many bridges, from 1 to 8.
    pub fn cap(&mut self, bridges: usize) {
        self.more_than[bridges..].fill(0);
    }

    pub fn only_in(mut self, slots: u64) -> Self {
        self.more_than.iter_mut().for_each(|word| *word &= slots);
        self
    }

    pub fn capacities(&self) -> Capacities {
        let mut capacities = [0; BRIDGES + 1];
        for (k, word) in self.more_than.iter().enumerate() {
            capacities[k + 1] = capacities[k] + word.count_ones() as i32;
        }
        capacities
    }

    /// The bridges on offer in a slot given as its bit.
    pub fn offered(&self, slot: u64) -> usize {
        self.more_than.iter().take_while(|&word| word & slot != 0).count()
    }

    /// The slots that offer at least so many bridges, from 1 to 8.
    pub fn at_least(&self, bridges: usize) -> u64 {
        self.more_than[bridges - 1]
    }
}
