//! Texts with numbers used before and with lines out of their place.

use super::limits::{any_station, preset_limit};
use super::rng::Rng;
use super::station::{tie_line, Station, MEDIUM, SMALL, TINY};
use super::supply::supply_line;

/// Numbers of presets and jobs that come again: in the head, in a call, in a later call, after a refused call.
pub fn used_number(rng: &mut Rng) -> Vec<u8> {
    let size = *rng.pick(&[TINY, SMALL, MEDIUM]);
    let mut station = Station::new(rng, size);
    if rng.chance(40) && station.head.len() > station.presets {
        let from = rng.within(station.presets..=station.head.len() - 1);
        let number = station.head[from].split(' ').nth(1).expect("a preset's number").to_owned();
        let at = rng.within(from + 1..=station.head.len());
        station.head.insert(at, format!("(preset {number} {} {} 0)", rng.below(11), rng.below(2)));
    }
    for _ in 0..rng.within(1..=8) {
        let at = rng.within(0..=station.events.len());
        let event = repeated_call(rng, &station);
        station.events.insert(at, event);
    }
    station.bytes()
}

/// A call with few different numbers, among them perhaps a preset's or one of an earlier call.
fn repeated_call(rng: &mut Rng, station: &Station) -> String {
    let numbers: Vec<&str> = station.head[station.presets..]
        .iter()
        .chain(station.events.iter().filter(|line| line.starts_with("(call")))
        .map(|line| line.split(' ').nth(1).unwrap_or("1").trim_start_matches('('))
        .chain(["5", "6"])
        .collect();
    let jobs: Vec<String> = (0..rng.within(1..=3))
        .map(|_| format!("({} {})", rng.pick(&numbers), rng.within(1..=station.slots + 1)))
        .collect();
    format!("(call {})", jobs.join(" "))
}

/// Lines with their form, out of their place.
pub fn misplaced(rng: &mut Rng) -> Vec<u8> {
    let mut station = any_station(rng);
    for _ in 0..rng.within(1..=2) {
        let extra = extra_line(rng, &station);
        match rng.below(4) {
            0 => station.head.insert(0, extra),
            1 => station.head[0] = extra,
            2 => {
                // In the head, half of the time among its busy lines.
                let last = if rng.chance(50) { station.presets } else { station.head.len() };
                let at = rng.within(1..=last);
                station.head.insert(at, extra);
            }
            _ => {
                let at = rng.within(0..=station.events.len());
                station.events.insert(at, extra);
            }
        }
    }
    if rng.chance(20) {
        rng.shuffle(&mut station.head);
    }
    station.bytes()
}

/// Puts a line into any place: line 1, one of those right after it, among the busy lines, the presets or the events.
pub fn insert_anywhere(rng: &mut Rng, station: &mut Station, line: String) {
    let (busy, presets, head) = (station.busy, station.presets, station.head.len());
    let at = match rng.below(9) {
        0 => 0,
        1 => 1,
        2 => station.tie,
        3 => rng.within(busy..=presets),
        4 => rng.within(presets..=head),
        _ => {
            let at = rng.within(0..=station.events.len());
            station.events.insert(at, line);
            return;
        }
    };
    station.head.insert(at, line);
}

/// A line of any of the seven forms, its values good or not.
fn extra_line(rng: &mut Rng, station: &Station) -> String {
    let (slots, bridges) = (station.slots, station.bridges);
    match rng.below(10) {
        0 => format!("(frame {slots} {bridges})"),
        1 => "(frame 0 99)".into(),
        2 | 3 => format!("(busy {} (1 1))", rng.within(0..=bridges + 1)),
        4 => format!("(busy {} (9 0) (70 80))", rng.within(0..=bridges + 1)),
        5 => preset_limit(rng),
        6 => format!("(clock {})", rng.within(0..=slots + 2)),
        7 => tie_line(rng),
        8 => supply_line(rng),
        _ => format!("(call ({} {}))", rng.within(0..=256), rng.within(0..=65)),
    }
}
