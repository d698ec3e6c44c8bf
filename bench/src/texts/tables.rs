//! Well-formed tables by seed that no text need have left: presets and jobs stand on any bridges of any slots, so that empty
//! cells have lower bridges than optional ones. Under a supply an evicted cell can end empty there.

use super::rng::Rng;
use crate::frame::{Table, CALL, CELLS, MANDATORY, OPTIONAL};
use crate::head::Head;

/// A table of a head, or none if what was drawn leaves a preset without its mandatory slots.
pub fn table(rng: &mut Rng, head: &Head) -> Option<Table> {
    let mut sketch = Sketch::new(head);
    for preset in &head.presets {
        let number = u16::from(preset.number);
        let last = sketch.place(rng, 0, usize::from(preset.mandatory), MANDATORY + number)?;
        // Many optional cells: they are what a call can evict.
        let room = sketch.with_room(last).len().min(usize::from(preset.optional));
        let count = rng.within(room / 2..=room);
        sketch.place(rng, last, count, OPTIONAL + number)?;
    }
    let unused: Vec<u8> = (1..=255).filter(|&number| !head.used.contains(number)).collect();
    for &number in unused.iter().rev().take(rng.below(4)) {
        let count = rng.within(0..=2).min(sketch.with_room(0).len());
        sketch.place(rng, 0, count, CALL + u16::from(number))?;
    }
    Some(sketch.table)
}

/// The table whose cells a listing shows so, its slots parted by bars: `0 o1 | c7 -`.
pub fn shown(cells: &str) -> Table {
    let mut table = [0; CELLS];
    let words = cells.split(' ').filter(|&word| word != "|");
    table.iter_mut().zip(words).for_each(|(cell, word)| *cell = shown_cell(word));
    table
}

fn shown_cell(word: &str) -> u16 {
    let (mark, number) = word.split_at(1);
    let kind = "0-moc".find(mark).expect("a kind of cell") as u16;
    kind * 256 + number.parse::<u16>().unwrap_or(0)
}

/// A table that is being filled.
struct Sketch<'a> {
    head: &'a Head,
    table: Table,
}

impl<'a> Sketch<'a> {
    fn new(head: &'a Head) -> Self {
        let mut table = [0; CELLS];
        for slot in 0..head.slots {
            for (bridge, busy) in head.busy[..head.bridges].iter().enumerate() {
                table[slot * head.bridges + bridge] = (busy >> slot & 1) as u16 * 256;
            }
        }
        Sketch { head, table }
    }

    /// Puts cells into so many different slots from `from` on; yields the slot after the last of them. None if there is no
    /// room for them.
    fn place(&mut self, rng: &mut Rng, from: usize, count: usize, content: u16) -> Option<usize> {
        let mut slots = self.with_room(from);
        rng.shuffle(&mut slots);
        for &slot in slots.get(..count)? {
            let empty: Vec<usize> = (0..self.head.bridges).filter(|bridge| self.row(slot)[*bridge] == 0).collect();
            self.table[slot * self.head.bridges + *rng.pick(&empty)] = content;
        }
        Some(slots[..count].iter().map(|slot| slot + 1).max().unwrap_or(from))
    }

    /// The slots from `from` on that have an empty bridge and a motor for it.
    fn with_room(&self, from: usize) -> Vec<usize> {
        let held = |slot: usize| self.row(slot).iter().filter(|&&cell| cell >= MANDATORY).count();
        (from..self.head.slots).filter(|&slot| self.row(slot).contains(&0) && held(slot) < self.head.motors()).collect()
    }

    fn row(&self, slot: usize) -> &[u16] {
        &self.table[slot * self.head.bridges..][..self.head.bridges]
    }
}
