//! Which cells a call evicts.

use super::Offers;
use crate::head::{BRIDGES, PRESETS};

/// The evicted cells of a call, as the slots of each preset.
pub type Evicted = [u64; PRESETS];

/// The cells that a call evicts, or None if it is not feasible even with all of them gone.
///
/// `offers` and `optional` (the slots of each preset's optional cells) hold only slots above the clock.
///
/// What a call lacks is the largest excess, over r, of its r largest jobs over the capacity for r. One more bridge in
/// a slot that offers k raises the capacity for every r above k, so it lessens the lack exactly if k is below the
/// smallest r with the largest excess. The sets that lessen the lack by one with each cell are the independent sets of
/// a matroid. Hence the smallest set that comes first is found by going through the cells once in eviction order and
/// taking each that helps; one that does not help never will later.
pub fn evict(lengths: &[u8], mut offers: Offers, optional: &Evicted, ranking: &[usize]) -> Option<Evicted> {
    let mut shortage = Shortage::new(lengths, &offers);
    let mut evicted = [0; PRESETS];
    for &place in ranking.iter().rev() {
        let mut cells = optional[place];
        loop {
            let Some(r) = shortage.smallest_worst() else {
                return Some(evicted);
            };
            // Not those that offer r bridges already; of the rest the latest slot.
            cells &= !offers.at_least(r);
            if cells == 0 {
                break;
            }
            let slot = 1 << (63 - cells.leading_zeros());
            shortage.lessen(offers.offered(slot));
            offers.add(slot);
            cells ^= slot;
            evicted[place] |= slot;
        }
    }
    shortage.smallest_worst().is_none().then_some(evicted)
}

/// By how much the r largest jobs exceed the capacity for r, r from 0 to the number of jobs.
struct Shortage {
    excess: [i32; BRIDGES + 1],
    count: usize,
}

impl Shortage {
    fn new(lengths: &[u8], offers: &Offers) -> Self {
        let mut sorted = [0; BRIDGES];
        let sorted = &mut sorted[..lengths.len()];
        sorted.copy_from_slice(lengths);
        sorted.sort_unstable_by(|a, b| b.cmp(a));
        let mut excess = offers.capacities().map(|capacity| -capacity);
        let mut largest = 0;
        for (length, excess) in sorted.iter().zip(&mut excess[1..]) {
            largest += i32::from(*length);
            *excess += largest;
        }
        Shortage { excess, count: lengths.len() }
    }

    /// The smallest r with the largest excess, or None if nothing exceeds.
    fn smallest_worst(&self) -> Option<usize> {
        let mut worst = 0;
        for r in 1..=self.count {
            if self.excess[r] > self.excess[worst] {
                worst = r;
            }
        }
        (worst > 0).then_some(worst)
    }

    /// One more bridge in a slot that offered so many.
    fn lessen(&mut self, offered: usize) {
        self.excess[offered + 1..].iter_mut().for_each(|excess| *excess -= 1);
    }
}
