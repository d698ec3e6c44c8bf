//! Texts that try the order of ties: frames in which equal remaining times meet in many slots, and tie lines in every place,
//! good or not.

use super::limits::any_station;
use super::places::insert_anywhere;
use super::rng::Rng;
use super::station::{tie_line, Station, LARGE, MEDIUM, SMALL};

/// Nearly a tie line; each lacks the form.
pub const LACKING_FORM: &[&str] = &[
    "(tie)",
    "(tie )",
    "(tie Hold)",
    "(tie HOLD)",
    "(tie PLACE)",
    "(Tie hold)",
    "(tie hold )",
    "(tie  hold)",
    "(tie  place)",
    "( tie hold)",
    "(tie\thold)",
    "(tiehold)",
    "(tie hol)",
    "(tie holds)",
    "(tie plac)",
    "(tie places)",
    "(tie hold place)",
    "(tie holdplace)",
    "(tie placehold)",
    "(tie hold 1)",
    "(tie 0)",
    "(tie 1)",
    "(tie (hold))",
    "(tie hold))",
    "(tie hold",
    "(tie place",
    "(tie hold) ",
    "(tie hold)\r",
    "(tie hold)(tie hold)",
    "(ties hold)",
    "(hold)",
    "tie hold",
    "(t",
];

/// Presets of like lengths, whose remaining times are soon equal since the largest go first, and calls of jobs that are equal
/// or nearly so; often with slots in which no bridge is free.
pub fn equal_needs(rng: &mut Rng) -> Vec<u8> {
    let size = *rng.pick(&[SMALL, SMALL, MEDIUM, MEDIUM, LARGE]);
    let mut station = Station::head_only(rng, size);
    station.head.truncate(station.presets);
    if station.busy == station.tie && rng.chance(60) {
        station.hold();
    }
    if rng.chance(40) {
        block_slots(rng, &mut station);
    }
    add_equal_presets(rng, &mut station);
    add_events(rng, &mut station);
    station.bytes()
}

/// Busy lines that take the same few slots on every bridge, in place of those there are.
fn block_slots(rng: &mut Rng, station: &mut Station) {
    let gap = 2 + rng.below(5);
    let slots: Vec<usize> = (1 + rng.below(gap)..=station.slots).step_by(gap).collect();
    let list: Vec<String> = slots.iter().map(|slot| format!("({slot} {slot})")).collect();
    station.head.truncate(station.busy);
    if !list.is_empty() {
        let busy = (1..=station.bridges).map(|bridge| format!("(busy {bridge} {})", list.join(" ")));
        station.head.extend(busy);
    }
    station.presets = station.head.len();
    station.taken.fill(0);
    slots.iter().for_each(|slot| station.taken[slot - 1] = station.bridges);
}

/// Two to eight presets, whose mandatory slots are at most some length and at least a half of it. Where there are enough free
/// cells, they take no more than all of these, a half or a third.
fn add_equal_presets(rng: &mut Rng, station: &mut Station) {
    let (count, part) = (rng.within(2..=8), *rng.pick(&[1, 2, 3]));
    // At most what a bridge, or a motor, has free on the average, since each needs so many different slots.
    let length = (station.free() / part / count.max(station.motors)).max(1);
    for _ in 0..count {
        let number = station.job_number(rng, 0);
        let (priority, mandatory) = (rng.below(3), rng.within(length.div_ceil(2)..=length));
        station.head.push(format!("(preset {number} {priority} {mandatory} {})", rng.within(0..=length)));
    }
}

fn add_events(rng: &mut Rng, station: &mut Station) {
    for _ in 0..rng.within(0..=8) {
        let event = match rng.below(100) {
            0..=29 => tie_line(rng),
            30..=44 => station.clock_line(rng),
            _ => equal_call(rng, station),
        };
        station.events.push(event);
    }
}

/// Two to eight jobs that differ by one slot at most.
fn equal_call(rng: &mut Rng, station: &mut Station) -> String {
    let length = rng.within(1..=station.slots.div_ceil(3));
    let jobs: Vec<String> =
        (0..rng.within(2..=8)).map(|_| format!("({} {})", station.job_number(rng, 2), length + rng.below(2))).collect();
    format!("(call {})", jobs.join(" "))
}

/// Directly after the frame line or the supply line: hold, place, one of them twice, both; and right after the head.
pub fn in_its_place(rng: &mut Rng) -> Vec<u8> {
    const LINES: &[&[&str]] = &[
        &["(tie hold)"],
        &["(tie hold)"],
        &["(tie place)"],
        &["(tie hold)", "(tie hold)"],
        &["(tie hold)", "(tie place)"],
        &["(tie place)", "(tie hold)"],
    ];
    let mut station = any_station(rng);
    let lines = rng.pick(LINES);
    station.head.splice(station.tie..station.busy, lines.iter().map(|&line| line.to_owned()));
    // A second tie line is an event: with it nothing else is left of the head, mostly.
    if lines.len() > 1 && rng.chance(70) {
        station.head.truncate(station.tie + lines.len());
    }
    if rng.chance(50) {
        let line = tie_line(rng);
        station.events.insert(0, line);
    }
    station.bytes()
}

/// A tie line for which the head is refused: before the frame line, in place of it, or `(tie place)` where hold has its
/// place.
pub fn out_of_place(rng: &mut Rng) -> Vec<u8> {
    let mut station = any_station(rng);
    match rng.below(4) {
        0 => station.head.insert(0, tie_line(rng)),
        1 => station.head[0] = tie_line(rng),
        _ => {
            station.head.splice(station.tie..station.busy, ["(tie place)".to_owned()]);
        }
    }
    station.bytes()
}

/// One to three tie lines in any place: on line 1, among the busy lines, between presets, among the events, at the end.
pub fn anywhere(rng: &mut Rng) -> Vec<u8> {
    let mut station = any_station(rng);
    for _ in 0..rng.within(1..=3) {
        let line = tie_line(rng);
        insert_anywhere(rng, &mut station, line);
    }
    station.bytes()
}

/// A tie line without its form, in any place, or a good one as the last line, without its byte 10.
pub fn damaged(rng: &mut Rng) -> Vec<u8> {
    let mut station = any_station(rng);
    if rng.chance(20) {
        return without_end(rng, station);
    }
    let line = (*rng.pick(LACKING_FORM)).to_owned();
    insert_anywhere(rng, &mut station, line);
    station.bytes()
}

/// The station with a tie line as its last, without byte 10; half of the time nothing but the frame line is before it.
fn without_end(rng: &mut Rng, mut station: Station) -> Vec<u8> {
    if rng.chance(50) {
        station.head.truncate(1);
        station.events.clear();
    }
    station.events.push(tie_line(rng));
    let mut bytes = station.bytes();
    bytes.pop();
    bytes
}
