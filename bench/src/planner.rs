//! From a station text to its listing.

use crate::frame::Frame;
use crate::head;
use crate::listing::Listing;
use crate::refusal::Refusal;
use crate::text::{lines, TEXT_LIMIT};

/// Appends to `out` everything that the program `plan` prints for this standard input.
pub fn listing(text: &[u8], out: &mut Vec<u8>) {
    let mut listing = Listing { out };
    if let Err((line, refusal)) = accepted(text, &mut listing) {
        listing.refused(line, refusal);
    }
}

/// The listing of a text whose head is accepted. Otherwise nothing is written and the head's refusal comes back.
fn accepted(text: &[u8], listing: &mut Listing<'_>) -> Result<(), (u32, Refusal)> {
    if text.len() > TEXT_LIMIT {
        return Err((0, Refusal::TextTooLong));
    }
    let mut lines = lines(text);
    let head = head::read(&mut lines)?;
    let (mut frame, grants) = Frame::plan(&head).map_err(|refusal| (head.lines, refusal))?;
    for (preset, grant) in head.presets.iter().zip(grants) {
        listing.granted(preset.number, grant);
    }
    for line in lines {
        listing.answer(line.number, frame.event(line.form));
    }
    listing.table(&frame);
    Ok(())
}
