//! The inputs of the benchmark, each the same in every run.

use std::fmt::Write;

use crate::text::{lines, Job, TEXT_LIMIT};
use crate::texts::rng::Rng;
use crate::texts::rows::{Sheet, Style};
use crate::texts::station::{Station, LARGEST};

/// One thing to be timed, on one input.
pub enum Load {
    /// All lines of a text are read; their values are not used.
    Read(Vec<u8>),
    /// A head, read beforehand, is planned into a table.
    Plan(Vec<u8>),
    /// A call into the frame of this head, which was read and planned beforehand.
    Call(Vec<u8>, Vec<Job>),
    /// The same call, on a table that is handed over and checked to be well-formed first.
    CheckedCall(Vec<u8>, Vec<Job>),
    /// Everything, from a text to its listing.
    Listing(Vec<u8>),
    /// Rows are read into a head, which was read beforehand.
    ReadRows(Vec<u8>, Vec<u8>),
    /// A head, read beforehand, is written as rows.
    WriteRows(Vec<u8>),
}

impl Load {
    /// The bytes of the text that is read.
    pub fn bytes(&self) -> usize {
        match self {
            Load::ReadRows(_, text)
            | Load::Read(text)
            | Load::Plan(text)
            | Load::Call(text, _)
            | Load::CheckedCall(text, _)
            | Load::Listing(text)
            | Load::WriteRows(text) => text.len(),
        }
    }
}

/// Events of all lengths up to exactly so many bytes, after a one-line head.
pub fn events(bytes: usize) -> Vec<u8> {
    let mut rng = Rng::new(1);
    let mut station = Station::head_only(&mut rng, LARGEST);
    station.head.truncate(1);
    station.ties = 0;
    // As when clocks began at 1: the text is the same, so that its times can be compared.
    station.clock = 1;
    station.fill(&mut rng, bytes - 30);
    let mut text = station.bytes();
    // A clock of many digits makes up for the rest.
    let digits = "1".repeat(bytes - text.len() - "(clock )\n".len());
    text.extend_from_slice(format!("(clock {digits})\n").as_bytes());
    text
}

/// Exactly so many bytes of rows for the widest frame, half of their fields quoted.
pub fn rows(bytes: usize) -> Vec<u8> {
    let mut rng = Rng::new(1);
    let mut sheet = Sheet::new(&mut rng, LARGEST);
    sheet.style = Style { quoted: 50, longest: 64, near: 20 };
    sheet.fill(&mut rng, bytes);
    sheet.row_bytes()
}

/// The head with the most rows: every other slot of the widest frame.
pub fn most_rows() -> Vec<u8> {
    let list: Vec<String> = (2..=64).step_by(2).map(|slot| format!("({slot} {slot})")).collect();
    let mut text = "(frame 64 8)\n".to_owned();
    for bridge in 1..=8 {
        let _ = writeln!(text, "(busy {bridge} {})", list.join(" "));
    }
    text.into_bytes()
}

/// A frame of eight bridges, some of it busy, half of the rest mandatory, and more optional slots than there is
/// capacity for, so that grants are cut.
pub fn head(slots: usize, presets: usize) -> Vec<u8> {
    let mut text = format!("(frame {slots} 8)\n");
    for bridge in [2, 5] {
        let _ = writeln!(text, "(busy {bridge} (2 {}) ({} {slots}))", slots / 4, slots / 2);
    }
    let mandatory = (slots * 3 / presets).min(slots * 3 / 4);
    for place in 0..presets {
        // Different needs and priorities, spread without a pattern.
        let less = place * 5 % (mandatory / 2 + 1);
        let (priority, optional) = (place * 7 % 10, (place * 11 + slots / 2) % (slots + 1));
        let _ = writeln!(text, "(preset {} {priority} {} {optional})", place + 1, mandatory - less);
    }
    text.into_bytes()
}

/// The widest frame, filled by 32 presets of one length: in three slots of four the order of ties decides, and in the fourth
/// the eight with the most slots still to get take the eight bridges.
pub fn equal_presets() -> Vec<u8> {
    let mut text = "(frame 64 8)\n".to_owned();
    for place in 1..=32 {
        let _ = writeln!(text, "(preset {place} {} 8 8)", place % 10);
    }
    text.into_bytes()
}

/// The same head with `(tie hold)` directly after its frame line.
pub fn held(head: Vec<u8>) -> Vec<u8> {
    after_frame(head, "(tie hold)\n")
}

/// The same head under a supply of so many motors.
pub fn supplied(head: Vec<u8>, motors: usize) -> Vec<u8> {
    after_frame(head, &format!("(supply {motors})\n"))
}

fn after_frame(head: Vec<u8>, line: &str) -> Vec<u8> {
    let frame = head.iter().position(|&byte| byte == b'\n').expect("a frame line") + 1;
    [&head[..frame], line.as_bytes(), &head[frame..]].concat()
}

/// 56 slots at the end of 64 in which `bridges` bridges hold nothing but optional cells, of so many presets; all else
/// is busy. So there are 56 x bridges optional cells.
pub fn optional_cells(bridges: usize, presets: usize) -> Vec<u8> {
    let mut text = "(frame 64 8)\n".to_owned();
    for bridge in 1..=8 {
        let last = if bridge <= bridges { 8 } else { 64 };
        let _ = writeln!(text, "(busy {bridge} (1 {last}))");
    }
    for place in 1..=presets {
        let _ = writeln!(text, "(preset {place} {} 0 {})", place % 10, 56 * bridges / presets);
    }
    text.into_bytes()
}

/// The lines that follow the head.
pub fn event_count(text: &[u8]) -> usize {
    lines(text).skip_while(|line| !line.form.is_some_and(|form| form.is_event())).count()
}

/// All slots of seven bridges are optional cells of seven presets; the eighth bridge is busy.
pub fn optional_slots(slots: usize) -> Vec<u8> {
    let mut text = format!("(frame {slots} 8)\n(busy 8 (1 {slots}))\n");
    for place in 1..=7 {
        let _ = writeln!(text, "(preset {place} {place} 0 {slots})");
    }
    text.into_bytes()
}

/// So many jobs of one length, with numbers that no preset of these heads has.
pub fn jobs(count: usize, length: usize) -> Vec<Job> {
    (0..count).map(|place| Job { number: 200 + place as u8, length: length as u8 }).collect()
}

/// The line of a call.
pub fn call_line(jobs: &[Job]) -> Vec<u8> {
    let list: Vec<String> = jobs.iter().map(|job| format!("({} {})", job.number, job.length)).collect();
    format!("(call {})\n", list.join(" ")).into_bytes()
}

/// A head, and the same call after it so many times.
pub fn repeated_call(head: Vec<u8>, jobs: &[Job], times: usize) -> Vec<u8> {
    let mut text = head;
    text.extend_from_slice(&call_line(jobs).repeat(times));
    assert!(text.len() <= TEXT_LIMIT, "the text would be refused whole");
    text
}

/// A contest day: the clock goes from 2 to the last slot while calls come in, up to the text's limit. Few are taken
/// (64 jobs would end it); most ask for more slots than are left and are refused after the search, since those cost
/// the most; some have a used number.
pub fn contest_day(slots: usize, presets: usize) -> Vec<u8> {
    let mut text = head(slots, presets);
    // Lines are about 15 bytes long.
    let events = (TEXT_LIMIT - text.len()) / 15;
    for event in 0..events {
        let line = match event % 48 {
            0..=11 => format!("(clock {})\n", 2 + event * (slots - 2) / events),
            12 => format!("(call ({} {}))\n", 100 + event / 48, 1 + event / 48 % 3),
            13..=15 => format!("(call (1 {}))\n", 1 + event % 7),
            16..=18 => format!("(call (250 {slots}) (251 {}))\n", 1 + event % slots),
            _ => format!("(call ({} {slots}))\n", 250 + event % 5),
        };
        if text.len() + line.len() > TEXT_LIMIT {
            break;
        }
        text.extend_from_slice(line.as_bytes());
    }
    text
}
