//! Station texts by seed: good ones of all sizes, and ones at fault in every way that a text can be. [`rows`] has
//! inputs with rows of a spreadsheet.
//!
//! Each text has a kind, so that it can be told what a comparison has tried.

mod clocks;
mod damage;
mod limits;
mod numbers;
mod places;
pub mod rng;
pub mod rows;
pub mod station;
pub mod supply;
pub mod tables;
pub mod ties;

use rng::Rng;
use station::{Size, Station, LARGE, LARGEST, MEDIUM, SMALL, TEXT_LIMIT, TINY};

pub struct Text {
    pub kind: &'static str,
    pub bytes: Vec<u8>,
}

struct Kind {
    name: &'static str,
    /// Out of all weights together, how often it is drawn. Small texts meet more faults in the same time.
    weight: usize,
    make: fn(&mut Rng) -> Vec<u8>,
}

const KINDS: &[Kind] = &[
    Kind { name: "tiny frame", weight: 14, make: |rng| sized(rng, TINY) },
    Kind { name: "small frame", weight: 20, make: |rng| sized(rng, SMALL) },
    Kind { name: "medium frame", weight: 14, make: |rng| sized(rng, MEDIUM) },
    Kind { name: "large frame", weight: 8, make: |rng| sized(rng, LARGE) },
    Kind { name: "largest frame", weight: 4, make: |rng| sized(rng, LARGEST) },
    Kind { name: "full day", weight: 2, make: full_day },
    Kind { name: "near full", weight: 9, make: limits::near_full },
    Kind { name: "head limit", weight: 8, make: limits::head_limit },
    Kind { name: "many presets", weight: 3, make: limits::many_presets },
    Kind { name: "event limit", weight: 8, make: limits::event_limit },
    Kind { name: "many jobs", weight: 3, make: limits::many_jobs },
    Kind { name: "used number", weight: 6, make: places::used_number },
    Kind { name: "misplaced line", weight: 6, make: places::misplaced },
    Kind { name: "equal needs", weight: 12, make: ties::equal_needs },
    Kind { name: "tie in its place", weight: 6, make: ties::in_its_place },
    Kind { name: "tie anywhere", weight: 6, make: ties::anywhere },
    Kind { name: "tie damaged", weight: 5, make: ties::damaged },
    Kind { name: "supply short", weight: 14, make: supply::short },
    Kind { name: "supply in place", weight: 6, make: supply::in_its_place },
    Kind { name: "supply anywhere", weight: 5, make: supply::anywhere },
    Kind { name: "supply damaged", weight: 4, make: supply::damaged },
    Kind { name: "clock before call", weight: 12, make: clocks::before_calls },
    Kind { name: "clock at its ends", weight: 6, make: clocks::at_their_ends },
    Kind { name: "huge number", weight: 5, make: numbers::huge_number },
    Kind { name: "bad number", weight: 4, make: numbers::bad_number },
    Kind { name: "length limit", weight: 1, make: limits::length_limit },
    Kind { name: "byte missing", weight: 5, make: damage::byte_missing },
    Kind { name: "byte doubled", weight: 5, make: damage::byte_doubled },
    Kind { name: "byte changed", weight: 5, make: damage::byte_changed },
    Kind { name: "byte inserted", weight: 5, make: damage::byte_inserted },
    Kind { name: "byte flipped", weight: 5, make: damage::byte_flipped },
    Kind { name: "line damaged", weight: 5, make: damage::line_damaged },
    Kind { name: "lacking form", weight: 5, make: damage::lacking_form },
    Kind { name: "cut short", weight: 3, make: damage::cut_short },
    Kind { name: "next to nothing", weight: 1, make: damage::next_to_nothing },
    Kind { name: "empty lines", weight: 1, make: damage::empty_lines },
    Kind { name: "noise", weight: 2, make: damage::noise },
];

/// The text of a seed.
pub fn text(seed: u64) -> Text {
    drawn(&mut Rng::new(seed), KINDS)
}

/// A text of one of these kinds, drawn by their weights.
fn drawn(rng: &mut Rng, kinds: &[Kind]) -> Text {
    let mut draw = rng.below(kinds.iter().map(|kind| kind.weight).sum());
    for kind in kinds {
        if draw < kind.weight {
            return Text { kind: kind.name, bytes: (kind.make)(rng) };
        }
        draw -= kind.weight;
    }
    unreachable!("the draw is below the sum of all weights")
}

/// The kinds' names, in the order of the table above.
pub fn kinds() -> impl Iterator<Item = &'static str> {
    KINDS.iter().map(|kind| kind.name)
}

fn sized(rng: &mut Rng, size: Size) -> Vec<u8> {
    Station::new(rng, size).bytes()
}

/// A frame of any size with events up to the text's limit, or to some length below it.
fn full_day(rng: &mut Rng) -> Vec<u8> {
    let size = *rng.pick(&[SMALL, MEDIUM, LARGE, LARGEST]);
    let mut station = Station::head_only(rng, size);
    let length = if rng.chance(50) { TEXT_LIMIT } else { rng.within(4_000..=TEXT_LIMIT) };
    station.fill(rng, length);
    station.bytes()
}

/// Where the head's tie line would stand among the lines of a text whose head is accepted, from 0: after the frame line
/// and a supply line.
fn tie_place(text: &[u8]) -> usize {
    let second = text.split(|&byte| byte == b'\n').nth(1);
    1 + usize::from(second.is_some_and(|line| line.starts_with(b"(supply ")))
}

/// Whether `(tie hold)` stands in the head.
pub fn holds_in_head(text: &[u8]) -> bool {
    text.split_inclusive(|&byte| byte == b'\n').nth(tie_place(text)) == Some(b"(tie hold)\n")
}

/// The text with the order of ties by place throughout: a head's `(tie hold)` is gone, and in place of an event's stands one
/// that changes nothing, `(clock 0)`: it is accepted where the clock is 0 already, and refused where it is not. So the two
/// texts have different tables only by the order of ties; one without hold stays as it is.
pub fn by_place(text: &[u8]) -> Vec<u8> {
    let (tied, tie) = (holds_in_head(text), tie_place(text));
    let lines = text.split_inclusive(|&byte| byte == b'\n').enumerate();
    let other = lines.map(|(place, line)| match (line, place) {
        (b"(tie hold)\n", place) if place == tie => &b""[..],
        (b"(tie hold)\n", _) => b"(clock 0)\n",
        // It would stand in the place of the head's tie line now, and be refused with the whole head.
        (b"(tie place)\n", place) if tied && place == tie + 1 => b"(clock 0)\n",
        _ => line,
    });
    other.collect::<Vec<_>>().concat()
}
