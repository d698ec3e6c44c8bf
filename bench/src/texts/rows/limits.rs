//! Rows that try the limits: values just within and just outside the frame, numbers of any length, one byte too many,
//! and more than one fault.

use crate::texts::limits::any_station;
use crate::texts::numbers::{long_number, no_number, replace_number};
use crate::texts::rng::Rng;
use crate::texts::station::{Station, MEDIUM, SMALL, TEXT_LIMIT};

use super::{with_rows, Sheet};

/// One row or two whose values are at and past the edges of the frame.
pub fn value_limit(rng: &mut Rng) -> Vec<u8> {
    let mut sheet = Sheet::any(rng);
    for _ in 0..*rng.pick(&[1, 1, 2]) {
        let row = edge_row(rng, &sheet);
        insert(rng, &mut sheet, row);
    }
    sheet.bytes()
}

fn edge_row(rng: &mut Rng, sheet: &Sheet) -> String {
    let (slots, bridges) = (sheet.station.slots, sheet.station.bridges);
    let middle = rng.within(1..=slots);
    let bridge = match rng.below(8) {
        0 => *rng.pick(&[0, bridges + 1, 8, 9, 255, 256, 257, 65_537]),
        1..=4 => bridges,
        _ => 1,
    };
    let (first, last) = match rng.below(12) {
        0..=2 => (1, slots),
        3 => (slots, slots),
        4 => (1, 1),
        5 => (0, middle),
        6 => (middle, slots + 1),
        7 => (slots + 1, slots + 1),
        8 => (middle, middle - 1),
        9 => (1, *rng.pick(&[63, 64, 65, 128, 256, 257, 65_536, 65_537])),
        10 => (*rng.pick(&[64, 65, 129, 257]), *rng.pick(&[64, 65, 129, 257])),
        _ => (0, 0),
    };
    sheet.printed(rng, [bridge, first, last])
}

/// Numbers of rows replaced by long ones, some of which would wrap to a small value in 64 bits or fewer.
pub fn huge_number(rng: &mut Rng) -> Vec<u8> {
    let sheet = Sheet::any(rng);
    let mut rows = sheet.row_bytes();
    for _ in 0..rng.within(1..=3) {
        let long = if rng.chance(30) { twenty_digits(rng) } else { long_number(rng) };
        replace_number(rng, &mut rows, long.as_bytes());
    }
    with_rows(sheet.station.bytes(), &rows)
}

/// Around the largest number of 64 bits, which has twenty digits.
fn twenty_digits(rng: &mut Rng) -> String {
    (u128::from(u64::MAX) - 2 + rng.below(70) as u128).to_string()
}

/// Numbers of rows with zeros in front, signs, points, or nothing at all.
pub fn bad_number(rng: &mut Rng) -> Vec<u8> {
    let sheet = Sheet::any(rng);
    let mut rows = sheet.row_bytes();
    let bad = no_number(rng);
    replace_number(rng, &mut rows, bad.as_bytes());
    with_rows(sheet.station.bytes(), &rows)
}

/// Rows without their form and rows outside the frame, in any sequence; some are both.
pub fn two_faults(rng: &mut Rng) -> Vec<u8> {
    let mut sheet = Sheet::any(rng);
    let (slots, bridges) = (sheet.station.slots, sheet.station.bridges);
    for _ in 0..rng.within(2..=4) {
        let row = match rng.below(7) {
            0 => sheet.printed(rng, [bridges + 1, 1, 1]),
            1 => sheet.printed(rng, [1, slots + 1, 1]),
            2 => sheet.joined(rng, [(bridges + 1).to_string(), "1".into(), "01".into()]),
            3 => sheet.joined(rng, ["0".into(), "00".into(), "0".into()]),
            4 => format!("{},{slots}", bridges + 1),
            5 => sheet.printed(rng, [bridges + 1, 1, 1]) + ",1",
            _ => sheet.printed(rng, [0, 0, slots + 1]) + "\n",
        };
        insert(rng, &mut sheet, row);
    }
    sheet.bytes()
}

fn insert(rng: &mut Rng, sheet: &mut Sheet, row: String) {
    let at = rng.within(0..=sheet.rows.len());
    sheet.rows.insert(at, row);
}

/// Around the limit of either text: 32,767 to 32,769 bytes, or far above; the other one good, damaged or too long too.
pub fn length_limit(rng: &mut Rng) -> Vec<u8> {
    let target = match rng.below(7) {
        0 => TEXT_LIMIT - 1,
        1 | 2 => TEXT_LIMIT,
        3..=5 => TEXT_LIMIT + 1,
        _ => TEXT_LIMIT + rng.within(2..=40_000),
    };
    if rng.chance(60) {
        return long_rows(rng, target);
    }
    let head = long_head(rng, target);
    match rng.below(4) {
        0 => head,
        1 => with_rows(head, b""),
        2 => with_rows(head, b"1,1,1\r\n"),
        _ => with_rows(head, "x".repeat(rng.within(1..=40_000)).as_bytes()),
    }
}

/// Rows of so many bytes: all of them good, or one of them at fault.
fn long_rows(rng: &mut Rng, bytes: usize) -> Vec<u8> {
    let size = *rng.pick(&[SMALL, MEDIUM]);
    let mut sheet = Sheet::new(rng, size);
    if rng.chance(15) {
        sheet.station.head.push("(busy 1)".into());
    }
    let last = match rng.below(5) {
        0 => format!("1,1,{}", "7".repeat(rng.within(1..=30_000))),
        1 => "x".repeat(rng.within(0..=30_000)),
        _ => String::new(),
    };
    if last.is_empty() {
        sheet.fill(rng, bytes);
    } else {
        sheet.fill(rng, bytes - last.len() - 2);
        insert(rng, &mut sheet, last);
    }
    sheet.bytes()
}

/// A head with so many bytes of text: events, good or not, or a head that goes on.
fn long_head(rng: &mut Rng, bytes: usize) -> Vec<u8> {
    let mut station: Station = any_station(rng);
    station.fill(rng, TEXT_LIMIT - 700);
    let mut text = station.bytes();
    if rng.chance(30) {
        text.truncate(station.head.iter().map(|line| line.len() + 1).sum());
    }
    let left = bytes - text.len();
    let last = if rng.chance(50) { format!("(clock {})\n", "7".repeat(left - 9)) } else { "x".repeat(left - 1) + "\n" };
    text.extend_from_slice(last.as_bytes());
    text
}
