//! Busy stretches as rows of a spreadsheet (RFC 4180, request 2026-01): bridge, first slot, last slot.
//!
//! A field is a number as in the station text, bare or in quotes; commas part the fields, CR LF ends the row. Rows come
//! in any sequence, and may touch and overlap: what they take together is busy. The first row at fault decides.

use crate::head::{self, Head, BRIDGES};
use crate::listing::Listing;
use crate::refusal::Refusal;
use crate::text::{lines, stretch, Cursor, TEXT_LIMIT};

/// The row or line at fault, or 0, and the cause.
type Fault = (u32, Refusal);

/// Appends to `out` everything that the program `rows` prints for this standard input: the head's text with the rows in
/// place of its busy lines, or without rows those of the head.
pub fn convert(input: &[u8], out: &mut Vec<u8>) {
    let mut listing = Listing { out };
    if let Err((line, refusal)) = accepted(input, &mut listing) {
        listing.refused(line, refusal);
    }
}

/// What the program prints where nothing is at fault. Otherwise nothing is written.
fn accepted(input: &[u8], listing: &mut Listing<'_>) -> Result<(), Fault> {
    let (text, rows) = split(input);
    let mut head = read_head(text)?;
    match rows {
        Some(rows) => {
            read(rows, &mut head)?;
            listing.head(&head);
        }
        None => listing.rows(&head),
    }
    Ok(())
}

/// A head's text and, after the first empty line, rows. Without an empty line there are none, not even no rows.
pub fn split(input: &[u8]) -> (&[u8], Option<&[u8]>) {
    let is_empty_line = |&at: &usize| input[at] == b'\n' && (at == 0 || input[at - 1] == b'\n');
    match (0..input.len()).find(is_empty_line) {
        Some(at) => (&input[..at], Some(&input[at + 1..])),
        None => (input, None),
    }
}

/// The head of a text. What follows from its first event on is not looked at, but counts among the text's bytes.
pub fn read_head(text: &[u8]) -> Result<Head, Fault> {
    if text.len() > TEXT_LIMIT {
        return Err((0, Refusal::TextTooLong));
    }
    head::read(&mut lines(text))
}

/// Puts rows in place of a head's busy slots; yields how many rows there are. Refused: the head stays as it was.
pub fn read(rows: &[u8], head: &mut Head) -> Result<u32, Fault> {
    if rows.len() > TEXT_LIMIT {
        return Err((0, Refusal::TextTooLong));
    }
    let mut busy = [0; BRIDGES];
    let mut cursor = Cursor { rest: rows };
    let mut count = 0;
    while !cursor.rest.is_empty() {
        count += 1;
        let row = row(&mut cursor).ok_or((count, Refusal::NoRow))?;
        let (bridge, slots) = taken(row, head).ok_or((count, Refusal::OutOfLimits))?;
        busy[bridge] |= slots;
    }
    head.set_busy(busy);
    Ok(count)
}

/// The three fields of the row that stands here, its end included.
fn row(cursor: &mut Cursor<'_>) -> Option<[u16; 3]> {
    let bridge = field(cursor)?;
    cursor.expect(b",")?;
    let first = field(cursor)?;
    cursor.expect(b",")?;
    let last = field(cursor)?;
    cursor.expect(b"\r\n")?;
    Some([bridge, first, last])
}

fn field(cursor: &mut Cursor<'_>) -> Option<u16> {
    let quoted = cursor.expect(b"\"").is_some();
    let number = cursor.number()?;
    if quoted {
        cursor.expect(b"\"")?;
    }
    Some(number)
}

/// The bridge of a row, from 0, and its slots; None if a value is outside the frame or the first slot above the last.
fn taken([bridge, first, last]: [u16; 3], head: &Head) -> Option<(usize, u64)> {
    let bridge = usize::from(bridge);
    let within = (1..=head.bridges).contains(&bridge) && 1 <= first && first <= last && usize::from(last) <= head.slots;
    within.then(|| (bridge - 1, stretch(first, last)))
}
