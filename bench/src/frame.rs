//! A planned frame: its table, its clock, its order of ties, and the events that it takes.
//!
//! Beside the table it keeps what a call asks for: the empty bridges of each slot and the cells held there, which with the
//! supply say how many bridges the slot offers, and the optional cells of each preset. A refused event changes nothing.

mod resume;

use crate::bits::{columns, ones, Numbers};
use crate::head::{Head, Preset, BRIDGES, PRESETS, SLOTS};
use crate::placing::{evict, grants, Evicted, Lrtf, Offers};
use crate::refusal::Refusal;
use crate::text::{Call, Form};

pub const CELLS: usize = SLOTS * BRIDGES;
pub const JOBS: usize = 64;

/// Slot by slot, in each slot bridge by bridge: kind x 256 + number.
pub type Table = [u16; CELLS];

const EMPTY: u16 = 0;
const BUSY: u16 = 1 << 8;
pub const MANDATORY: u16 = 2 << 8;
pub const OPTIONAL: u16 = 3 << 8;
pub const CALL: u16 = 4 << 8;

/// What an accepted event answers.
#[derive(Clone, Copy, Debug, PartialEq, Eq)]
pub enum Answer {
    Now(usize),
    /// How many optional cells were evicted.
    Taken(u32),
    Tie {
        hold: bool,
    },
}

#[derive(Clone, Debug, PartialEq, Eq)]
pub struct Frame {
    slots: usize,
    bridges: usize,
    presets: Vec<Preset>,
    ranking: Vec<usize>,
    /// From 0 to one past the last slot: it counts slots from 1.
    clock: usize,
    /// Whether the order of ties in force is hold.
    hold: bool,
    table: Table,
    /// How many motors may run in a slot.
    motors: u32,
    /// How many run in each slot: one for each cell of presets and calls. Busy cells draw nothing.
    held: [u8; SLOTS],
    /// The empty bridges of each slot; where motors are short, more than it offers.
    empty: [u8; SLOTS],
    /// What [`Frame::free`] says of each slot.
    offers: Offers,
    /// The slots of each preset's optional cells.
    optional: [u64; PRESETS],
    /// The numbers of presets and jobs.
    used: Numbers,
    jobs: usize,
}

impl Frame {
    /// Plans a head; yields the frame at clock 0, the head's order of ties in force, and the grants in file order.
    /// Refused: the mandatory slots are not feasible.
    pub fn plan(head: &Head) -> Result<(Self, [u8; PRESETS]), Refusal> {
        let mut frame = Frame::unplanned(head);
        let grants = grants(head, &frame.ranking, &frame.offers).ok_or(Refusal::HeadInfeasible)?;
        frame.place_presets(&grants);
        Ok((frame, grants))
    }

    pub fn slots(&self) -> usize {
        self.slots
    }

    /// The cells of a slot, which counts from 0.
    pub fn row(&self, slot: usize) -> &[u16] {
        &self.table[slot * self.bridges..][..self.bridges]
    }

    pub fn table(&self) -> &Table {
        &self.table
    }

    /// The slot that is about to begin, which is too late for a call; 0 while a call can still use the first one.
    pub fn now(&self) -> usize {
        self.clock
    }

    pub fn hold(&self) -> bool {
        self.hold
    }

    /// Takes one line after the head.
    pub fn event(&mut self, form: Option<Form>) -> Result<Answer, Refusal> {
        match form.ok_or(Refusal::Malformed)? {
            Form::Clock(clock) => self.clock(usize::from(clock)).map(Answer::Now),
            Form::Call(call) => self.call(&call.ok_or(Refusal::OutOfLimits)?).map(Answer::Taken),
            Form::Tie { hold } => {
                self.hold = hold;
                Ok(Answer::Tie { hold })
            }
            Form::Frame { .. } | Form::Supply(_) | Form::Busy { .. } | Form::Preset { .. } => Err(Refusal::Misplaced),
        }
    }

    pub fn clock(&mut self, clock: usize) -> Result<usize, Refusal> {
        if clock > self.slots + 1 {
            return Err(Refusal::OutOfLimits);
        }
        if clock < self.clock {
            return Err(Refusal::ClockBack);
        }
        self.clock = clock;
        Ok(clock)
    }

    /// Places a call above the clock; yields how many optional cells it evicts.
    pub fn call(&mut self, call: &Call) -> Result<u32, Refusal> {
        let jobs = call.jobs();
        let mut used = self.used;
        if !jobs.iter().all(|job| used.insert(job.number)) {
            return Err(Refusal::NumberUsed);
        }
        if self.jobs + jobs.len() > JOBS {
            return Err(Refusal::TooMany);
        }
        let mut lengths = [0; BRIDGES];
        lengths.iter_mut().zip(jobs).for_each(|(length, job)| *length = job.length);
        let evicted = self.evicted(&lengths[..jobs.len()]).ok_or(Refusal::CallInfeasible)?;
        self.used = used;
        self.jobs += jobs.len();
        let count = self.clear(&evicted);
        self.place_jobs(call);
        Ok(count)
    }

    /// The head's frame before anything is placed.
    fn unplanned(head: &Head) -> Self {
        let free = head.free();
        let mut offers = Offers::default();
        free.iter().for_each(|&slots| offers.add(slots));
        offers.cap(head.motors());
        let mut frame = Frame {
            slots: head.slots,
            bridges: head.bridges,
            presets: head.presets.clone(),
            ranking: head.ranking(),
            clock: 0,
            hold: head.hold,
            table: [EMPTY; CELLS],
            motors: head.motors() as u32,
            held: [0; SLOTS],
            empty: columns(&free),
            offers,
            optional: [0; PRESETS],
            used: head.used,
            jobs: 0,
        };
        for (bridge, &busy) in head.busy.iter().enumerate() {
            ones(busy).for_each(|slot| frame.table[slot * frame.bridges + bridge] = BUSY);
        }
        frame
    }

    fn place_presets(&mut self, grants: &[u8; PRESETS]) {
        let needs = self.presets.iter().zip(grants).map(|(preset, grant)| preset.mandatory + grant);
        let mut lrtf = Lrtf::new(needs, self.hold);
        let mut mandatory: [u8; PRESETS] = [0; PRESETS];
        mandatory.iter_mut().zip(&self.presets).for_each(|(left, preset)| *left = preset.mandatory);
        for slot in ones(self.offers.at_least(1)) {
            if lrtf.finished() {
                break;
            }
            let chosen = lrtf.choose(slot, self.free(slot));
            let presets = &self.presets;
            let optional = &mut self.optional;
            fill(&mut self.table[slot * self.bridges..], &mut self.empty[slot], chosen, |place| {
                let number = u16::from(presets[place].number);
                if mandatory[place] > 0 {
                    mandatory[place] -= 1;
                    return MANDATORY + number;
                }
                optional[place] |= 1 << slot;
                OPTIONAL + number
            });
            self.occupy(slot, chosen.count_ones());
        }
    }

    /// How many more presets or jobs a slot takes: each needs an empty bridge and a motor.
    fn free(&self, slot: usize) -> u32 {
        self.empty[slot].count_ones().min(self.motors - u32::from(self.held[slot]))
    }

    /// So many empty bridges of a slot have just been taken.
    fn occupy(&mut self, slot: usize, count: u32) {
        self.held[slot] += count as u8;
        self.offers.set(slot, self.free(slot));
    }

    /// The cells that jobs of these lengths evict, if the call is feasible.
    fn evicted(&self, lengths: &[u8]) -> Option<Evicted> {
        let ahead = self.ahead();
        let optional = self.optional.map(|slots| slots & ahead);
        evict(lengths, self.offers.only_in(ahead), &optional, &self.ranking)
    }

    /// The slots above the clock. As bits count from 0, it is itself the position of the first of them.
    fn ahead(&self) -> u64 {
        let to_end = u64::MAX >> (SLOTS - self.slots);
        to_end & u64::MAX.checked_shl(self.clock as u32).unwrap_or(0)
    }

    /// Makes the evicted cells empty and counts them.
    fn clear(&mut self, evicted: &Evicted) -> u32 {
        let mut count = 0;
        for (place, &slots) in evicted.iter().enumerate().take(self.presets.len()) {
            self.optional[place] &= !slots;
            // An evicted cell leaves an empty bridge and a motor, so its slot offers one more under any supply.
            self.offers.add(slots);
            count += slots.count_ones();
            for slot in ones(slots) {
                self.clear_cell(slot, OPTIONAL + u16::from(self.presets[place].number));
            }
        }
        count
    }

    fn clear_cell(&mut self, slot: usize, content: u16) {
        let row = &mut self.table[slot * self.bridges..][..self.bridges];
        if let Some(bridge) = row.iter().position(|&cell| cell == content) {
            row[bridge] = EMPTY;
            self.empty[slot] |= 1 << bridge;
            self.held[slot] -= 1;
        }
    }

    fn place_jobs(&mut self, call: &Call) {
        let mut lrtf = Lrtf::new(call.jobs().iter().map(|job| job.length), self.hold);
        for slot in ones(self.offers.at_least(1) & self.ahead()) {
            if lrtf.finished() {
                break;
            }
            let chosen = lrtf.choose(slot, self.free(slot));
            fill(&mut self.table[slot * self.bridges..], &mut self.empty[slot], chosen, |job| {
                CALL + u16::from(call.jobs()[job].number)
            });
            self.occupy(slot, chosen.count_ones());
        }
    }
}

/// The chosen tasks, in their list's order, take the empty bridges of a row in ascending order.
fn fill(row: &mut [u16], empty: &mut u8, chosen: u32, mut content: impl FnMut(usize) -> u16) {
    for task in ones(u64::from(chosen)) {
        row[empty.trailing_zeros() as usize] = content(task);
        *empty &= *empty - 1;
    }
}
