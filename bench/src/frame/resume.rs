//! A frame from a table, a clock and an order of ties handed over by somebody else. Nothing is taken on trust: the table
//! must be well-formed for the head, in no slot beyond its supply, and the clock from 0 to one past the last slot, else
//! `TableNotWellFormed`; any order of ties will do, and calls may have cells in any slot, those up to the clock too.

use super::{Frame, Table, BUSY, CALL, EMPTY, JOBS, MANDATORY, OPTIONAL};
use crate::head::{Head, PRESETS};
use crate::refusal::Refusal;

impl Frame {
    pub fn resume(head: &Head, table: &Table, clock: usize, hold: bool) -> Result<Self, Refusal> {
        let mut frame = Frame::unplanned(head);
        let in_range = clock <= head.slots + 1;
        let mut check = Check::new(&frame);
        if !in_range || !(0..head.slots).all(|slot| check.row(&mut frame, table, slot)) || !check.complete(&frame) {
            return Err(Refusal::TableNotWellFormed);
        }
        frame.clock = clock;
        frame.hold = hold;
        frame.table = *table;
        Ok(frame)
    }
}

/// What the rows so far say about presets and jobs.
struct Check {
    /// For each number its preset's place, or `NO_PRESET`.
    places: [u8; 256],
    /// For each number the last slot that has it, from 1; 0 for none.
    last_slot: [u8; 256],
    mandatory: [u8; PRESETS],
}

const NO_PRESET: u8 = PRESETS as u8;

impl Check {
    fn new(frame: &Frame) -> Self {
        let mut places = [NO_PRESET; 256];
        for (place, preset) in frame.presets.iter().enumerate() {
            places[usize::from(preset.number)] = place as u8;
        }
        Check { places, last_slot: [0; 256], mandatory: [0; PRESETS] }
    }

    /// Enters one row into the frame, whose own table still has the busy cells only. False if a cell is at fault.
    fn row(&mut self, frame: &mut Frame, table: &Table, slot: usize) -> bool {
        let start = slot * frame.bridges;
        for bridge in 0..frame.bridges {
            let cell = table[start + bridge];
            if (cell == BUSY) != (frame.table[start + bridge] == BUSY) {
                return false;
            }
            if cell != BUSY && cell != EMPTY {
                if !self.task(frame, cell, slot) {
                    return false;
                }
                frame.empty[slot] &= !(1 << bridge);
                frame.held[slot] += 1;
            }
        }
        if u32::from(frame.held[slot]) > frame.motors {
            return false;
        }
        frame.offers.set(slot, frame.free(slot));
        true
    }

    /// A cell that is neither empty nor busy.
    fn task(&mut self, frame: &mut Frame, cell: u16, slot: usize) -> bool {
        let number = cell as u8;
        let last_slot = std::mem::replace(&mut self.last_slot[usize::from(number)], slot as u8 + 1);
        if last_slot == slot as u8 + 1 {
            return false;
        }
        let place = self.places[usize::from(number)];
        let preset = usize::from(place);
        match cell & 0xff00 {
            CALL if place == NO_PRESET && number > 0 => frame.jobs += usize::from(frame.used.insert(number)),
            MANDATORY if place != NO_PRESET && frame.optional[preset] == 0 => self.mandatory[preset] += 1,
            OPTIONAL if place != NO_PRESET => frame.optional[preset] |= 1 << slot,
            _ => return false,
        }
        true
    }

    fn complete(&self, frame: &Frame) -> bool {
        let presets = frame.presets.iter().zip(&self.mandatory).zip(&frame.optional);
        frame.jobs <= JOBS
            && presets.into_iter().all(|((preset, &mandatory), optional)| {
                mandatory == preset.mandatory && optional.count_ones() <= u32::from(preset.optional)
            })
    }
}
