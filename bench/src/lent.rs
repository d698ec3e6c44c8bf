//! The library's functions for rows over the records that cross its boundary, as include/planner.h states them: 16
//! numbers of a frame and 32 preset records of four bytes. What is refused leaves everything as it was.

use crate::bits::Numbers;
use crate::head::{self, Head, Preset, BRIDGES, PRESETS};
use crate::listing::Listing;
use crate::refusal::Refusal;
use crate::rows;
use crate::text::{lines, TEXT_LIMIT};

pub const FRAME: usize = 16;
pub const PRESET_BYTES: usize = 4 * PRESETS;
pub const OUT: usize = 8_192;

/// Where the busy slots of bridge 1 stand among a frame's numbers; those of the others follow.
pub const BUSY: usize = 4;

/// Where the head's supply stands among them: how many motors it feeds at a time, 0 without a supply line.
pub const SUPPLY: usize = 12;

/// Where the head's order of ties and the one in force stand among them: 0 is place, any other number hold.
pub const TIE: usize = 13;
pub const TIE_NOW: usize = 14;

/// A frame and its presets as they cross the boundary.
#[derive(Clone, Debug, PartialEq, Eq)]
pub struct Lent {
    pub frame: Vec<u64>,
    pub presets: Vec<u8>,
}

impl Lent {
    pub fn new(head: &Head) -> Self {
        let mut frame = vec![0; FRAME];
        // The last of these is the clock, which starts at 0.
        frame[..BUSY].copy_from_slice(&[head.slots as u64, head.bridges as u64, head.presets.len() as u64, 0]);
        frame[BUSY..][..BRIDGES].copy_from_slice(&head.busy);
        frame[SUPPLY] = u64::from(head.supply.unwrap_or(0));
        (frame[TIE], frame[TIE_NOW]) = (u64::from(head.hold), u64::from(head.hold));
        let mut presets = vec![0; PRESET_BYTES];
        for (record, preset) in presets.chunks_exact_mut(4).zip(&head.presets) {
            record.copy_from_slice(&[preset.number, preset.priority, preset.mandatory, preset.optional]);
        }
        Lent { frame, presets }
    }

    /// Puts rows in place of the busy slots; yields how many rows there are, or the row at fault and its cause.
    pub fn read_rows(&mut self, text: &[u8]) -> Result<u32, (u32, Refusal)> {
        if text.len() > TEXT_LIMIT {
            return Err((0, Refusal::TextTooLong));
        }
        let mut head = self.tried().map_err(|refusal| (0, refusal))?;
        let count = rows::read(text, &mut head)?;
        self.frame[BUSY..][..BRIDGES].copy_from_slice(&head.busy);
        Ok(count)
    }

    /// Writes the busy slots as rows to the front of `out`; yields how many bytes they are.
    pub fn write_rows(&self, out: &mut [u8]) -> Result<usize, Refusal> {
        if out.len() < OUT {
            return Err(Refusal::TooShort);
        }
        let head = self.tried()?;
        let mut rows = Vec::new();
        Listing { out: &mut rows }.rows(&head);
        out[..rows.len()].copy_from_slice(&rows);
        Ok(rows.len())
    }

    /// The head that the records stand for, after they are tried by 8 and by 2.
    fn tried(&self) -> Result<Head, Refusal> {
        if self.frame.len() < FRAME || self.presets.len() < PRESET_BYTES {
            return Err(Refusal::TooShort);
        }
        self.yielded().ok_or(Refusal::OutOfLimits)
    }

    /// The head, if some text yields it: the text that it would have is written, and read.
    fn yielded(&self) -> Option<Head> {
        let within = |place: usize, most: usize| usize::try_from(self.frame[place]).ok().filter(|&n| n <= most);
        let (slots, bridges, count) = (within(0, 255)?, within(1, 255)?, within(2, PRESETS)?);
        let mut busy = [0; BRIDGES];
        busy.copy_from_slice(&self.frame[BUSY..][..BRIDGES]);
        let records = self.presets.chunks_exact(4).take(count);
        let presets =
            records.map(|r| Preset { number: r[0], priority: r[1], mandatory: r[2], optional: r[3] }).collect();
        let supply = Some(within(SUPPLY, 255)? as u8).filter(|&motors| motors > 0);
        let hold = self.frame[TIE] != 0;
        let written = Head { slots, bridges, supply, hold, busy, presets, used: Numbers::default(), lines: 0 };
        let mut text = Vec::new();
        Listing { out: &mut text }.head(&written);
        head::read(&mut lines(&text)).ok()
    }
}
