//! Texts that try the limits: values just within and just outside, one item or one byte too many.

use super::rng::Rng;
use super::station::{any_supply, Station, LARGE, LARGEST, MEDIUM, SMALL, TEXT_LIMIT, TINY};

/// One head line replaced by a line at or past a limit.
pub fn head_limit(rng: &mut Rng) -> Vec<u8> {
    let mut station = any_station(rng);
    let (slots, bridges) = (station.slots, station.bridges);
    match rng.below(3) {
        0 => {
            let values = [(0, 1), (1, 0), (64, 8), (65, 8), (64, 9), (1, 1), (255, 255), (256, 1), (63, 8)];
            let (slots, bridges) = *rng.pick(&values);
            station.head[0] = format!("(frame {slots} {bridges})");
        }
        1 => {
            // Mostly alone; beside other busy lines it may be out of its place as well.
            if rng.chance(70) {
                station.head.drain(station.busy..station.presets);
                station.presets = station.busy;
            }
            let at = if rng.chance(50) { station.busy } else { station.presets };
            let line = busy_limit(rng, slots, bridges);
            station.head.insert(at, line);
        }
        _ => {
            let at = rng.within(station.presets..=station.head.len());
            let line = preset_limit(rng);
            station.head.insert(at, line);
        }
    }
    station.bytes()
}

fn busy_limit(rng: &mut Rng, slots: usize, bridges: usize) -> String {
    let bridge = *rng.pick(&[0, 1, 1, bridges, bridges, bridges + 1, 8, 9]);
    let middle = rng.within(1..=slots);
    let list = match rng.below(8) {
        0 => format!("(0 {middle})"),
        1 => format!("(1 {slots})"),
        2 => format!("({middle} {})", slots + 1),
        3 => format!("({} {})", slots + 1, slots + 1),
        4 => format!("({middle} {})", middle - 1),
        // A second stretch that overlaps the first, touches it, or leaves the least gap.
        5 | 6 => format!("(1 {middle}) ({} {slots})", middle + rng.below(4)),
        _ => format!("({middle} {middle}) (1 1)"),
    };
    format!("(busy {bridge} {list})")
}

pub fn preset_limit(rng: &mut Rng) -> String {
    let number = *rng.pick(&[0, 1, 17, 254, 255, 256]);
    let priority = *rng.pick(&[0, 9, 9, 10]);
    let mandatory = *rng.pick(&[0, 0, 1, 64, 65]);
    let optional = *rng.pick(&[0, 1, 64, 64, 65]);
    format!("(preset {number} {priority} {mandatory} {optional})")
}

/// 31 to 34 presets, the later ones good or with a fault that is tried before or after their number.
pub fn many_presets(rng: &mut Rng) -> Vec<u8> {
    let (slots, bridges) = (rng.within(1..=64), rng.within(1..=8));
    let mut text = format!("(frame {slots} {bridges})\n");
    let count = rng.within(31..=34);
    for place in 1..=count {
        let number = match rng.below(400) {
            0 => 0,
            1 => 256,
            2 => 1,
            _ if place > 32 && rng.chance(25) => *rng.pick(&[0, 1, 256]),
            _ => place,
        };
        text += &format!("(preset {number} {} 0 {})\n", rng.below(10), rng.below(4));
    }
    if rng.chance(50) {
        text += "(clock 1)\n(call (200 1))\n";
    }
    text.into_bytes()
}

/// Events at and past their limits among ordinary ones.
pub fn event_limit(rng: &mut Rng) -> Vec<u8> {
    let mut station = any_station(rng);
    for _ in 0..rng.within(1..=6) {
        let line = limit_event(rng, &mut station);
        let at = rng.within(0..=station.events.len());
        station.events.insert(at, line);
    }
    station.bytes()
}

fn limit_event(rng: &mut Rng, station: &mut Station) -> String {
    let slots = station.slots;
    let number = station.job_number(rng, 0);
    match rng.below(13) {
        0 => "(clock 0)".into(),
        1 => format!("(clock {slots})"),
        2 => format!("(clock {})", slots + 1),
        3 => format!("(clock {})", slots + 2),
        4 => format!("(clock {})", *rng.pick(&[65, 66, 255, 256, 257, 65536, 65537])),
        5 => format!("(call ({} 1))", *rng.pick(&[0, 255, 256, 257, 65536 + 9])),
        6 => format!("(call ({number} {}))", *rng.pick(&[0, 1, 64, 65, 256, 257])),
        7 => format!("(call ({number} {slots}))"),
        8 => format!("(call ({number} {}))", slots + 1),
        9 => many_jobs_call(rng, station, 8),
        10 => many_jobs_call(rng, station, 9),
        11 => many_jobs_call(rng, station, 17),
        // Two faults in one call: a value, and the same number twice.
        _ => format!("(call ({number} 1) ({number} {}))", *rng.pick(&[0, 1, 65])),
    }
}

fn many_jobs_call(rng: &mut Rng, station: &mut Station, count: usize) -> String {
    let jobs: Vec<String> = (0..count).map(|_| format!("({} 1)", station.job_number(rng, 3))).collect();
    format!("(call {})", jobs.join(" "))
}

/// One-slot jobs on a wide frame until the 65th is refused; the clock moves on, since jobs in past slots count, but leaves the
/// last slot to the calls.
pub fn many_jobs(rng: &mut Rng) -> Vec<u8> {
    let mut station = Station::head_only(rng, LARGE);
    if rng.chance(70) {
        station.head.truncate(station.busy);
    }
    for _ in 0..rng.within(10..=90) {
        let count = rng.within(1..=8);
        let line = many_jobs_call(rng, &mut station, count);
        station.events.push(line);
        if rng.chance(20) {
            station.clock = (station.clock + 1).min(station.slots - 1);
            station.events.push(format!("(clock {})", station.clock));
        }
    }
    station.bytes()
}

/// Mandatory slots around the largest sum that is feasible, often under a supply.
pub fn near_full(rng: &mut Rng) -> Vec<u8> {
    let (slots, bridges) = (rng.within(1..=64), rng.within(1..=8));
    let supply = if rng.chance(50) { Some(any_supply(rng, bridges)) } else { None };
    let motors = supply.map_or(bridges, |motors| motors.min(bridges));
    let supply = supply.map_or(String::new(), |motors| format!("(supply {motors})\n"));
    let tie = if rng.chance(50) { "(tie hold)\n" } else { "" };
    let mut text = format!("(frame {slots} {bridges})\n{supply}{tie}");
    let mut left = (slots * motors) as i64 + rng.within(0..=2) as i64 - 1;
    let mut place = 1;
    while left > 0 && place <= 32 {
        let most = (slots + usize::from(rng.chance(3))).min(64);
        let mandatory = rng.within(most.div_ceil(2)..=most).min(left as usize);
        text += &format!("(preset {place} {} {mandatory} {})\n", rng.below(10), rng.below(8));
        left -= mandatory as i64;
        place += 1;
    }
    text += "(call (200 1))\n(call (201 1) (202 1))\n";
    text.into_bytes()
}

/// Around the text's own limit: 32,767 to 32,769 bytes, or far above.
pub fn length_limit(rng: &mut Rng) -> Vec<u8> {
    let mut station = any_station(rng);
    station.fill(rng, TEXT_LIMIT - 700);
    let mut bytes = station.bytes();
    let target = match rng.below(6) {
        0 => TEXT_LIMIT - 1,
        1 | 2 => TEXT_LIMIT,
        3 | 4 => TEXT_LIMIT + 1,
        _ => TEXT_LIMIT + rng.within(2..=40_000),
    };
    // The last line: one long number, formed or not, or a call of very many jobs.
    let left = target - bytes.len();
    let last = match rng.below(3) {
        0 => format!("(clock {})\n", "7".repeat(left - 9)),
        1 => "x".repeat(left),
        _ => format!("(call{})\n", " (1 1)".repeat((left - 7) / 6)),
    };
    bytes.extend_from_slice(last.as_bytes());
    bytes.resize(target, b'\n');
    bytes
}

pub fn any_station(rng: &mut Rng) -> Station {
    let size = match rng.below(20) {
        0..=6 => TINY,
        7..=13 => SMALL,
        14..=17 => MEDIUM,
        18 => LARGE,
        _ => LARGEST,
    };
    Station::new(rng, size)
}
