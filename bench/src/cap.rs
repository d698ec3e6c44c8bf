//! What the supply of a text changes: how often its plan and its calls would end otherwise if every bridge had a motor.

use crate::frame::{Answer, Frame};
use crate::head::{self, Head};
use crate::refusal::Refusal;
use crate::text::{lines, Form};

/// How one text feels its supply.
#[derive(Clone, Copy, Debug, Default, PartialEq, Eq)]
pub struct Felt {
    /// Whether the mandatory slots are feasible but for the supply.
    pub head_refused: bool,
    /// Whether less is granted.
    pub granted_less: bool,
    /// Whether the plan has another table.
    pub planned_otherwise: bool,
    /// Calls that evict more cells, and calls that have no place. Each is held against the same call without a supply on the
    /// table that it finds, so that an earlier difference does not count again.
    pub evicting_more: u64,
    pub without_place: u64,
}

/// None if the text's head is refused before it is planned, or has no supply.
pub fn felt(text: &[u8]) -> Option<Felt> {
    let mut lines = lines(text);
    let head = head::read(&mut lines).ok().filter(|head| head.supply.is_some())?;
    let uncapped = Head { supply: None, ..head.clone() };
    let free = Frame::plan(&uncapped);
    let Ok((mut frame, granted)) = Frame::plan(&head) else {
        return Some(Felt { head_refused: free.is_ok(), ..Felt::default() });
    };
    let (free, free_granted) = free.expect("what is feasible under a supply is so without");
    let mut felt = Felt {
        granted_less: granted != free_granted,
        planned_otherwise: frame.table() != free.table(),
        ..Felt::default()
    };
    for line in lines {
        if matches!(line.form, Some(Form::Call(_))) {
            felt.call(&uncapped, &frame, line.form);
        }
        let _ = frame.event(line.form);
    }
    Some(felt)
}

impl Felt {
    /// One call on the frame as it stands.
    fn call(&mut self, uncapped: &Head, frame: &Frame, call: Option<Form>) {
        let (mut capped, table) = (frame.clone(), frame.table());
        let mut free = Frame::resume(uncapped, table, frame.now(), frame.hold()).expect("a supply only forbids tables");
        match (capped.event(call), free.event(call)) {
            (Ok(Answer::Taken(cells)), Ok(Answer::Taken(fewer))) => self.evicting_more += u64::from(fewer < cells),
            (Err(Refusal::CallInfeasible), Ok(_)) => self.without_place += 1,
            _ => {}
        }
    }
}
