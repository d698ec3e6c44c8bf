//! The head of a text: the frame, its supply, its order of ties, the busy stretches and the presets. The first line at fault
//! decides.

use std::iter::Peekable;

use crate::bits::Numbers;
use crate::refusal::Refusal;
use crate::text::{Form, Line, Lines};

pub const SLOTS: usize = 64;
pub const BRIDGES: usize = 8;
pub const PRESETS: usize = 32;
pub const PRIORITIES: usize = 10;

#[derive(Clone, Copy, Debug, Default, PartialEq, Eq)]
pub struct Preset {
    pub number: u8,
    pub priority: u8,
    pub mandatory: u8,
    pub optional: u8,
}

#[derive(Clone, Debug, PartialEq, Eq)]
pub struct Head {
    pub slots: usize,
    pub bridges: usize,
    /// How many motors the supply feeds at a time, from 1 to 8; none without a supply line. It may exceed the bridges.
    pub supply: Option<u8>,
    /// Whether `(tie hold)` stands directly after the frame line, or after the supply line there.
    pub hold: bool,
    /// For each bridge its busy slots, bit s - 1 for slot s.
    pub busy: [u64; BRIDGES],
    /// In file order.
    pub presets: Vec<Preset>,
    /// The numbers of the presets.
    pub used: Numbers,
    /// How many lines it has.
    pub lines: u32,
}

/// Reads the head and leaves `lines` at the first line that has an event's form, a tie line in the head's place for it
/// aside. Refused: the line and the cause.
pub fn read(lines: &mut Peekable<Lines<'_>>) -> Result<Head, (u32, Refusal)> {
    // Without any line, and with an event on line 1, the frame is missing on line 1.
    let first = lines.next().ok_or((1, Refusal::Misplaced))?;
    let mut reader = Reader::new(first).map_err(|refusal| (1, refusal))?;
    let mut admit = |line: Line| reader.admit(line).map_err(|refusal| (line.number, refusal));
    // A supply line has its place right after the frame line, the head's tie line right after both. A later tie line is an
    // event and ends the head.
    if let Some(line) = lines.next_if(|line| matches!(line.form, Some(Form::Supply(_)))) {
        admit(line)?;
    }
    if let Some(line) = lines.next_if(|line| matches!(line.form, Some(Form::Tie { .. }))) {
        admit(line)?;
    }
    while let Some(line) = lines.next_if(|line| !line.form.is_some_and(|form| form.is_event())) {
        admit(line)?;
    }
    Ok(reader.head)
}

struct Reader {
    head: Head,
    /// The bridge of the last busy line, 0 before the first.
    last_bridge: u16,
}

impl Reader {
    fn new(first: Line) -> Result<Self, Refusal> {
        let Form::Frame { slots, bridges } = first.form.ok_or(Refusal::Malformed)? else {
            return Err(Refusal::Misplaced);
        };
        let (slots, bridges) = (usize::from(slots), usize::from(bridges));
        if !(1..=SLOTS).contains(&slots) || !(1..=BRIDGES).contains(&bridges) {
            return Err(Refusal::OutOfLimits);
        }
        let presets = Vec::with_capacity(PRESETS);
        let (supply, hold, busy) = (None, false, [0; BRIDGES]);
        let head = Head { slots, bridges, supply, hold, busy, presets, used: Numbers::default(), lines: 1 };
        Ok(Reader { head, last_bridge: 0 })
    }

    fn admit(&mut self, line: Line) -> Result<(), Refusal> {
        self.head.lines = line.number;
        match line.form.ok_or(Refusal::Malformed)? {
            Form::Busy { bridge, slots } => self.busy(bridge, slots),
            Form::Preset { number, priority, mandatory, optional } => {
                self.preset(number, priority, mandatory, optional)
            }
            Form::Supply(motors) => self.supply(line.number, motors),
            Form::Tie { hold } => self.tie(hold),
            Form::Frame { .. } | Form::Clock(_) | Form::Call(_) => Err(Refusal::Misplaced),
        }
    }

    /// Its one place is line 2, directly after the frame line.
    fn supply(&mut self, line: u32, motors: u16) -> Result<(), Refusal> {
        if line != 2 {
            return Err(Refusal::Misplaced);
        }
        // More motors than bridges are within limits: such a supply caps nothing, and is kept for the head's text.
        if !(1..=BRIDGES).contains(&usize::from(motors)) {
            return Err(Refusal::OutOfLimits);
        }
        self.head.supply = Some(motors as u8);
        Ok(())
    }

    /// Directly after the frame line or the supply line; elsewhere a tie line ends the head. A head without one has the
    /// order by place, so a second way to write that has no place.
    fn tie(&mut self, hold: bool) -> Result<(), Refusal> {
        if !hold {
            return Err(Refusal::Misplaced);
        }
        self.head.hold = true;
        Ok(())
    }

    fn busy(&mut self, bridge: u16, slots: Option<u64>) -> Result<(), Refusal> {
        // Bridge 0 as the first one does ascend from nothing: it is outside its limits, not out of its place.
        let ascends = bridge > self.last_bridge || self.last_bridge == 0;
        if !ascends || !self.head.presets.is_empty() {
            return Err(Refusal::Misplaced);
        }
        let slots = slots.filter(|slots| slots & !self.head.all_slots() == 0).ok_or(Refusal::OutOfLimits)?;
        if !(1..=self.head.bridges).contains(&usize::from(bridge)) {
            return Err(Refusal::OutOfLimits);
        }
        self.head.busy[usize::from(bridge) - 1] = slots;
        self.last_bridge = bridge;
        Ok(())
    }

    fn preset(&mut self, number: u16, priority: u16, mandatory: u16, optional: u16) -> Result<(), Refusal> {
        let within = (1..=255).contains(&number)
            && usize::from(priority) < PRIORITIES
            && usize::from(mandatory) <= SLOTS
            && usize::from(optional) <= SLOTS;
        if !within {
            return Err(Refusal::OutOfLimits);
        }
        let number = number as u8;
        if !self.head.used.insert(number) {
            return Err(Refusal::NumberUsed);
        }
        if self.head.presets.len() == PRESETS {
            return Err(Refusal::TooMany);
        }
        let (priority, mandatory, optional) = (priority as u8, mandatory as u8, optional as u8);
        self.head.presets.push(Preset { number, priority, mandatory, optional });
        Ok(())
    }
}

impl Head {
    /// The frame's slots, bit s - 1 for slot s.
    pub fn all_slots(&self) -> u64 {
        u64::MAX >> (SLOTS - self.slots)
    }

    /// Puts these busy slots, all of them the frame's, in place of those that it has.
    pub fn set_busy(&mut self, busy: [u64; BRIDGES]) {
        let before = 1 + usize::from(self.supply.is_some()) + usize::from(self.hold);
        let lines = busy.iter().filter(|&&slots| slots != 0).count();
        self.busy = busy;
        self.lines = (before + lines + self.presets.len()) as u32;
    }

    /// How many motors may run at a time: one for each bridge, or what the supply feeds if that is less.
    pub fn motors(&self) -> usize {
        self.supply.map_or(self.bridges, |supply| self.bridges.min(usize::from(supply)))
    }

    /// For each bridge its free slots; none for bridges that the frame does not have.
    pub fn free(&self) -> [u64; BRIDGES] {
        let all = self.all_slots();
        std::array::from_fn(|bridge| if bridge < self.bridges { all & !self.busy[bridge] } else { 0 })
    }

    /// The presets' places in the list, best rank first: by priority, then by line.
    pub fn ranking(&self) -> Vec<usize> {
        let mut places: Vec<usize> = (0..self.presets.len()).collect();
        places.sort_by_key(|&place| self.presets[place].priority);
        places
    }
}
