//! Texts that try the supply: frames in which motors are short and bridges are not, and supply lines in every place, good or
//! not.

use super::limits::any_station;
use super::places::insert_anywhere;
use super::rng::Rng;
use super::station::{any_supply, Size, Station, LARGE, MEDIUM, SMALL};

/// Nearly a supply line; each lacks the form.
pub const LACKING_FORM: &[&str] = &[
    "(supply)",
    "(supply )",
    "(supply 03)",
    "(supply 00)",
    "(supply -1)",
    "(supply +1)",
    "(supply 1.0)",
    "(supply three)",
    "(supply 2 2)",
    "(supply 2 )",
    "(supply  2)",
    "( supply 2)",
    "(supply\t2)",
    "(supply2)",
    "(supply (2))",
    "(supply 2))",
    "(supply 2",
    "(supply 2) ",
    "(supply 2)\r",
    "(supply 2)(tie hold)",
    "(supply 2) (supply 2)",
    "(Supply 2)",
    "(SUPPLY 2)",
    "(suppl 2)",
    "(supplys 2)",
    "(supplies 2)",
    "(supply hold)",
    "supply 2",
    "(s",
];

/// A supply line of good form, its value good or not; out of its place it is refused for that, whatever it says.
pub fn supply_line(rng: &mut Rng) -> String {
    if rng.chance(25) {
        return outside_limits(rng);
    }
    format!("(supply {})", rng.within(1..=8))
}

fn outside_limits(rng: &mut Rng) -> String {
    const VALUES: &[&str] = &["0", "0", "9", "9", "10", "99", "256", "257", "4294967297", "18446744073709551617"];
    format!("(supply {})", rng.pick(VALUES))
}

/// Fewer motors than bridges, presets that take up to all of what is fed, and short calls: so the supply, where there are
/// bridges enough, decides what is granted, what is evicted and whether there is a place at all.
pub fn short(rng: &mut Rng) -> Vec<u8> {
    let size = *rng.pick(&[SMALL, SMALL, MEDIUM, MEDIUM, LARGE]);
    let mut station = Station::head_only(rng, Size { bridges: (2, size.bridges.1), ..size });
    let motors = rng.within(1..=station.bridges - 1);
    station.set_supply(motors);
    station.head.truncate(station.presets);
    add_presets(rng, &mut station);
    add_events(rng, &mut station);
    station.bytes()
}

/// One to three presets more than there are motors. Their mandatory slots take some part of what is fed, now and then a
/// little more than all of it; of optional slots they ask for any number.
fn add_presets(rng: &mut Rng, station: &mut Station) {
    let count = station.motors + rng.within(1..=3);
    let average = station.free() * rng.within(0..=10) / 10 / count;
    for _ in 0..count {
        let number = station.job_number(rng, 0);
        let mandatory = (average + rng.below(2)).min(station.slots);
        let (priority, optional) = (rng.below(4), rng.within(0..=station.slots));
        station.head.push(format!("(preset {number} {priority} {mandatory} {optional})"));
    }
}

/// Clocks, and calls of a few jobs, most of them short.
fn add_events(rng: &mut Rng, station: &mut Station) {
    for _ in 0..rng.within(1..=10) {
        let event = if rng.chance(15) { station.clock_line(rng) } else { call_line(rng, station) };
        station.events.push(event);
    }
}

fn call_line(rng: &mut Rng, station: &mut Station) -> String {
    let longest = if rng.chance(70) { station.slots.div_ceil(4) } else { station.slots };
    let count = rng.within(1..=(station.motors + 1).min(8));
    let jobs: Vec<String> =
        (0..count).map(|_| format!("({} {})", station.job_number(rng, 2), rng.within(1..=longest))).collect();
    format!("(call {})", jobs.join(" "))
}

/// Directly after the frame line: a supply below, at and above the bridges, one outside its limits, two of them, and a tie
/// line after it or before it.
pub fn in_its_place(rng: &mut Rng) -> Vec<u8> {
    let mut station = any_station(rng);
    let good = format!("(supply {})", any_supply(rng, station.bridges));
    let (hold, place) = ("(tie hold)".to_owned(), "(tie place)".to_owned());
    let lines = match rng.below(12) {
        0..=2 => vec![good],
        3 | 4 => vec![good, hold],
        5 => vec![good, place],
        6 => vec![good, supply_line(rng)],
        7 => vec![hold, good],
        8 => vec![good, hold, supply_line(rng)],
        9 | 10 => vec![outside_limits(rng)],
        _ => vec![outside_limits(rng), hold],
    };
    station.head.splice(1..station.busy, lines);
    station.bytes()
}

/// A supply line for which the head is refused: before the frame line, in place of it, after a tie line, or a second one
/// anywhere in the head.
pub fn out_of_place(rng: &mut Rng) -> Vec<u8> {
    let mut station = any_station(rng);
    let line = supply_line(rng);
    match rng.below(4) {
        0 => station.head.insert(0, line),
        1 => station.head[0] = line,
        2 => {
            station.head.splice(1..station.busy, ["(tie hold)".to_owned(), line]);
        }
        _ => {
            station.set_supply(1);
            let at = rng.within(2..=station.head.len());
            station.head.insert(at, line);
        }
    }
    station.bytes()
}

/// One to three supply lines in any place.
pub fn anywhere(rng: &mut Rng) -> Vec<u8> {
    let mut station = any_station(rng);
    for _ in 0..rng.within(1..=3) {
        let line = supply_line(rng);
        insert_anywhere(rng, &mut station, line);
    }
    station.bytes()
}

/// A supply line without its form, mostly where one has its place, or a good one as the last line, without its byte 10.
pub fn damaged(rng: &mut Rng) -> Vec<u8> {
    let mut station = any_station(rng);
    if rng.chance(15) {
        station.head.truncate(1);
        station.events = vec![supply_line(rng)];
        let mut bytes = station.bytes();
        bytes.pop();
        return bytes;
    }
    let line = (*rng.pick(LACKING_FORM)).to_owned();
    if rng.chance(50) {
        station.head.splice(1..station.tie, [line]);
    } else {
        insert_anywhere(rng, &mut station, line);
    }
    station.bytes()
}
