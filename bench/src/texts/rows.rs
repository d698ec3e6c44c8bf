//! Inputs of the program `rows` by seed: a station text, mostly with an empty line and rows after it, good or at fault in
//! every way that either can be.

mod damage;
mod limits;
pub mod records;

use super::limits::any_station;
use super::rng::Rng;
use super::station::{Size, Station, LARGE, LARGEST, MEDIUM, SMALL, TEXT_LIMIT, TINY};
use super::{drawn, Kind, Text};

const KINDS: &[Kind] = &[
    Kind { name: "tiny frame", weight: 8, make: |rng| sized(rng, TINY) },
    Kind { name: "small frame", weight: 12, make: |rng| sized(rng, SMALL) },
    Kind { name: "medium frame", weight: 12, make: |rng| sized(rng, MEDIUM) },
    Kind { name: "large frame", weight: 10, make: |rng| sized(rng, LARGE) },
    Kind { name: "largest frame", weight: 8, make: |rng| sized(rng, LARGEST) },
    Kind { name: "in pieces", weight: 8, make: in_pieces },
    Kind { name: "every other slot", weight: 4, make: every_other_slot },
    Kind { name: "full text", weight: 3, make: full_text },
    Kind { name: "no rows", weight: 3, make: no_rows },
    Kind { name: "no empty line", weight: 14, make: |rng| any_station(rng).bytes() },
    Kind { name: "value limit", weight: 10, make: limits::value_limit },
    Kind { name: "length limit", weight: 3, make: limits::length_limit },
    Kind { name: "huge number", weight: 6, make: limits::huge_number },
    Kind { name: "bad number", weight: 6, make: limits::bad_number },
    Kind { name: "two faults", weight: 6, make: limits::two_faults },
    Kind { name: "byte damaged", weight: 16, make: damage::byte_damaged },
    Kind { name: "row end", weight: 8, make: damage::row_end },
    Kind { name: "lacking form", weight: 8, make: damage::lacking_form },
    Kind { name: "row damaged", weight: 5, make: damage::row_damaged },
    Kind { name: "cut short", weight: 4, make: damage::cut_short },
    Kind { name: "any head", weight: 8, make: damage::any_head },
    Kind { name: "head at fault", weight: 12, make: damage::head_at_fault },
    Kind { name: "events damaged", weight: 4, make: damage::events_damaged },
    Kind { name: "next to nothing", weight: 2, make: damage::next_to_nothing },
    Kind { name: "noise", weight: 4, make: damage::noise },
];

/// The input of a seed.
pub fn input(seed: u64) -> Text {
    drawn(&mut Rng::new(seed), KINDS)
}

/// The kinds' names, in the order of the table above.
pub fn kinds() -> impl Iterator<Item = &'static str> {
    KINDS.iter().map(|kind| kind.name)
}

/// A station and rows that its frame has room for.
pub struct Sheet {
    pub station: Station,
    pub rows: Vec<String>,
    pub style: Style,
    /// The values of the last row: the next one may touch it or overlap with it.
    last: [usize; 3],
}

/// How a sheet's rows are drawn.
pub struct Style {
    /// Of a hundred fields, how many are quoted.
    pub quoted: usize,
    /// The longest stretch of most rows.
    pub longest: usize,
    /// Of a hundred rows, how many start from the last one.
    pub near: usize,
}

impl Sheet {
    /// Without rows, and mostly without events.
    pub fn new(rng: &mut Rng, size: Size) -> Self {
        let station = if rng.chance(35) { Station::new(rng, size) } else { Station::head_only(rng, size) };
        Sheet::of(rng, station)
    }

    pub fn of(rng: &mut Rng, station: Station) -> Self {
        let style = Style {
            quoted: *rng.pick(&[0, 30, 50, 100]),
            longest: station.slots.div_ceil(*rng.pick(&[1, 2, 8, 64])),
            near: *rng.pick(&[0, 20, 60]),
        };
        Sheet { station, rows: Vec::new(), style, last: [1, 1, 1] }
    }

    /// Of any size, with at least one row.
    pub fn any(rng: &mut Rng) -> Self {
        let size = *rng.pick(&[TINY, TINY, SMALL, SMALL, SMALL, MEDIUM, MEDIUM, LARGE, LARGEST]);
        let mut sheet = Sheet::new(rng, size);
        let count = rng.within(1..=12);
        sheet.add(rng, count);
        sheet
    }

    pub fn add(&mut self, rng: &mut Rng, count: usize) {
        for _ in 0..count {
            let row = self.row(rng);
            self.rows.push(row);
        }
    }

    /// A row of the frame.
    pub fn row(&mut self, rng: &mut Rng) -> String {
        let slots = self.station.slots;
        let [bridge, first, last] = self.last;
        let near = rng.chance(self.style.near);
        let bridge = if near { bridge } else { rng.within(1..=self.station.bridges) };
        let first = match rng.below(4) {
            0 if near => (last + 1).min(slots),
            1 if near => rng.within(first..=last),
            2 if near => first.saturating_sub(1).max(1),
            _ => rng.within(1..=slots),
        };
        let longest = if rng.chance(5) { slots } else { self.style.longest };
        self.last = [bridge, first, (first + rng.below(longest)).min(slots)];
        self.printed(rng, self.last)
    }

    /// A row of these values, its fields quoted or bare.
    pub fn printed(&self, rng: &mut Rng, values: [usize; 3]) -> String {
        self.joined(rng, values.map(|value| value.to_string()))
    }

    pub fn joined(&self, rng: &mut Rng, fields: [String; 3]) -> String {
        fields.map(|field| if rng.chance(self.style.quoted) { format!("\"{field}\"") } else { field }).join(",")
    }

    /// Adds rows up to exactly so many bytes, which are at least 30 more than there are.
    pub fn fill(&mut self, rng: &mut Rng, bytes: usize) {
        let mut left = bytes - self.row_bytes().len();
        // A row has 7 to 15 bytes.
        while left > 45 {
            let row = self.row(rng);
            left -= row.len() + 2;
            self.rows.push(row);
        }
        // The last few are drawn until they come out: all of one length would not, so their quotes are mixed.
        let (count, rest) = (self.rows.len(), left);
        let quoted = std::mem::replace(&mut self.style.quoted, 50);
        while left > 0 {
            let row = self.row(rng);
            if let Some(less) = left.checked_sub(row.len() + 2) {
                left = less;
                self.rows.push(row);
            } else {
                left = rest;
                self.rows.truncate(count);
            }
        }
        self.style.quoted = quoted;
    }

    pub fn row_bytes(&self) -> Vec<u8> {
        self.rows.iter().flat_map(|row| [row.as_bytes(), b"\r\n"].concat()).collect()
    }

    pub fn bytes(&self) -> Vec<u8> {
        with_rows(self.station.bytes(), &self.row_bytes())
    }
}

/// A head's text, an empty line, rows.
pub fn with_rows(head: Vec<u8>, rows: &[u8]) -> Vec<u8> {
    [&head, &b"\n"[..], rows].concat()
}

fn sized(rng: &mut Rng, size: Size) -> Vec<u8> {
    let mut sheet = Sheet::new(rng, size);
    let most = *rng.pick(&[3, 3, 10, 10, 40, 200]);
    let count = rng.within(0..=most);
    sheet.add(rng, count);
    sheet.bytes()
}

/// Whole bridges in pieces that touch or overlap, in any sequence, now and then with a piece missing.
fn in_pieces(rng: &mut Rng) -> Vec<u8> {
    let size = *rng.pick(&[SMALL, MEDIUM, LARGE, LARGEST]);
    let mut sheet = Sheet::new(rng, size);
    let (slots, missing) = (sheet.station.slots, *rng.pick(&[0, 0, 10]));
    for bridge in 1..=sheet.station.bridges {
        let longest = rng.within(1..=slots);
        let mut first = 1;
        while first <= slots {
            let last = (first + rng.below(longest)).min(slots);
            let overlap = if rng.chance(30) { rng.below(first) } else { 0 };
            if !rng.chance(missing) {
                let row = sheet.printed(rng, [bridge, first - overlap, last]);
                sheet.rows.push(row);
            }
            first = last + 1;
        }
    }
    rng.shuffle(&mut sheet.rows);
    sheet.bytes()
}

/// The most stretches that a bridge can have, as rows or as busy lines without rows.
fn every_other_slot(rng: &mut Rng) -> Vec<u8> {
    let size = *rng.pick(&[MEDIUM, LARGE, LARGEST, LARGEST]);
    let mut station = Station::head_only(rng, size);
    let (slots, bridges, start) = (station.slots, station.bridges, 1 + rng.below(2));
    let single = |slot: usize| format!("({slot} {slot})");
    let list: Vec<String> = (start..=slots).step_by(2).map(single).collect();
    let busy = (1..=bridges).map(|bridge| format!("(busy {bridge} {})", list.join(" ")));
    if list.is_empty() || rng.chance(50) {
        let mut sheet = Sheet::of(rng, station);
        for bridge in 1..=bridges {
            for slot in (start..=slots).step_by(2) {
                let row = sheet.printed(rng, [bridge, slot, slot]);
                sheet.rows.push(row);
            }
        }
        rng.shuffle(&mut sheet.rows);
        return sheet.bytes();
    }
    station.head.splice(station.busy..station.presets, busy);
    station.bytes()
}

/// Rows up to the limit of their text, or to some length below it.
fn full_text(rng: &mut Rng) -> Vec<u8> {
    let size = *rng.pick(&[TINY, SMALL, MEDIUM, LARGE, LARGEST]);
    let mut sheet = Sheet::new(rng, size);
    let length = if rng.chance(50) { TEXT_LIMIT } else { rng.within(4_000..=TEXT_LIMIT) };
    sheet.fill(rng, length);
    sheet.bytes()
}

/// An empty line and nothing after it.
fn no_rows(rng: &mut Rng) -> Vec<u8> {
    with_rows(any_station(rng).bytes(), b"")
}
