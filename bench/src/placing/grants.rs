//! How many optional slots each preset is granted.

use super::{Capacities, Offers};
use crate::head::{Head, BRIDGES, PRESETS};

/// The grant of each preset, in file order; None if the mandatory slots are not feasible.
pub fn grants(head: &Head, ranking: &[usize], offers: &Offers) -> Option<[u8; PRESETS]> {
    let mut needs = Needs::of(head);
    let capacities = offers.capacities();
    if !needs.feasible(&capacities) {
        return None;
    }
    let mut grants = [0; PRESETS];
    for &place in ranking {
        let preset = head.presets[place];
        grants[place] = needs.raise(i32::from(preset.mandatory), i32::from(preset.optional), &capacities) as u8;
    }
    Some(grants)
}

/// The needs of all presets, largest first.
struct Needs {
    sorted: [i32; PRESETS],
    count: usize,
    total: i32,
}

impl Needs {
    fn of(head: &Head) -> Self {
        let mut sorted = [0; PRESETS];
        for (need, preset) in sorted.iter_mut().zip(&head.presets) {
            *need = i32::from(preset.mandatory);
        }
        let count = head.presets.len();
        sorted[..count].sort_unstable_by(|a, b| b.cmp(a));
        Needs { sorted, count, total: sorted.iter().sum() }
    }

    fn feasible(&self, capacities: &Capacities) -> bool {
        let mut largest = 0;
        let each = self.sorted[..self.count].iter().zip(&capacities[1..]).all(|(need, capacity)| {
            largest += need;
            largest <= *capacity
        });
        each && self.total <= capacities[BRIDGES]
    }

    /// Raises one need of this size as far as all stay feasible, by `most` at most; yields by how much.
    fn raise(&mut self, need: i32, most: i32, capacities: &Capacities) -> i32 {
        let place = self.sorted[..self.count].partition_point(|&other| other > need);
        let raise = (self.highest(place, capacities) - need).min(most);
        let risen = need + raise;
        let new_place = self.sorted[..place].partition_point(|&other| other > risen);
        self.sorted.copy_within(new_place..place, new_place + 1);
        self.sorted[new_place] = risen;
        self.total += raise;
        raise
    }

    /// The highest need that is feasible beside all but the one at `place`. With the r - 1 largest others it must not
    /// exceed the capacity for r; groups of r without it are feasible already.
    fn highest(&self, place: usize, capacities: &Capacities) -> i32 {
        let mut highest = capacities[BRIDGES] - (self.total - self.sorted[place]);
        let mut largest = 0;
        let others = (0..self.count).filter(|&other| other != place).map(|other| self.sorted[other]);
        for (capacity, other) in capacities[1..].iter().zip(others.chain([0])) {
            highest = highest.min(capacity - largest);
            largest += other;
        }
        highest
    }
}
