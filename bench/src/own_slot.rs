//! What it changes that a call cannot use the clock's own slot: how often the calls of a text would end otherwise if they
//! could.

use crate::frame::{Answer, Frame};
use crate::head::{self, Head};
use crate::refusal::Refusal;
use crate::text::{lines, Form};

/// How the calls of one text miss the clock's own slot. Each is held against the same call with that slot on the table that it
/// finds, so that an earlier difference does not count again.
#[derive(Clone, Copy, Debug, Default, PartialEq, Eq)]
pub struct Missed {
    /// Calls that have no place.
    pub without_place: u64,
    /// Calls that are taken and leave another table, and those of them that evict more cells.
    pub placed_otherwise: u64,
    pub evicting_more: u64,
}

/// None if the text's head is refused.
pub fn missed(text: &[u8]) -> Option<Missed> {
    let mut lines = lines(text);
    let head = head::read(&mut lines).ok()?;
    let (mut frame, _) = Frame::plan(&head).ok()?;
    let mut missed = Missed::default();
    for line in lines {
        if matches!(line.form, Some(Form::Call(_))) {
            missed.call(&head, &frame, line.form);
        }
        let _ = frame.event(line.form);
    }
    Some(missed)
}

impl Missed {
    pub fn add(&mut self, other: Missed) {
        self.without_place += other.without_place;
        self.placed_otherwise += other.placed_otherwise;
        self.evicting_more += other.evicting_more;
    }

    /// One call on the frame as it stands. With the clock's own slot it has the slots that it had one clock earlier; at clock 0
    /// there is no such slot.
    fn call(&mut self, head: &Head, frame: &Frame, call: Option<Form>) {
        let Some(earlier) = frame.now().checked_sub(1) else {
            return;
        };
        let mut without = frame.clone();
        let mut with = Frame::resume(head, frame.table(), earlier, frame.hold()).expect("the table is the frame's own");
        match (without.event(call), with.event(call)) {
            (Ok(Answer::Taken(cells)), Ok(Answer::Taken(fewer))) => {
                self.placed_otherwise += u64::from(without.table() != with.table());
                self.evicting_more += u64::from(fewer < cells);
            }
            (Err(Refusal::CallInfeasible), Ok(_)) => self.without_place += 1,
            _ => {}
        }
    }
}
