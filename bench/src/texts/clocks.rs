//! Texts that try the clock: calls right after it, which would have used its own slot, and clocks at both ends of their range.

use super::rng::Rng;
use super::station::{Size, Station, LARGE, LARGEST, MEDIUM, SMALL, TINY};

/// Clocks, each with a call or two right after it, whose jobs need about as many slots as there are above the clock, and fewer
/// presets than bridges, most of whose cells are optional. So with the clock's own slot a call would often have a place, or an
/// empty cell where it has to evict one.
pub fn before_calls(rng: &mut Rng) -> Vec<u8> {
    let size = *rng.pick(&[TINY, SMALL, SMALL, MEDIUM, LARGE]);
    let mut station = Station::head_only(rng, Size { bridges: (2, size.bridges.1), ..size });
    station.head.truncate(station.presets);
    add_presets(rng, &mut station);
    for _ in 0..rng.within(1..=6) {
        let clock = clock_line(rng, &mut station);
        station.events.push(clock);
        for _ in 0..rng.within(1..=2) {
            let call = call_line(rng, &mut station);
            station.events.push(call);
        }
    }
    station.bytes()
}

fn add_presets(rng: &mut Rng, station: &mut Station) {
    for _ in 0..rng.within(1..=station.bridges - 1) {
        let number = station.job_number(rng, 0);
        let (priority, mandatory) = (rng.below(3), rng.within(0..=station.slots / 4));
        station.head.push(format!("(preset {number} {priority} {mandatory} {})", station.slots));
    }
}

/// Mostly a small part of the way to the last slot, or none of it.
fn clock_line(rng: &mut Rng, station: &mut Station) -> String {
    if rng.chance(10) {
        return station.clock_line(rng);
    }
    let left = station.slots.saturating_sub(station.clock);
    station.clock += rng.below(2 + left / 3).min(left);
    format!("(clock {})", station.clock)
}

/// One to three jobs: as long as there are slots above the clock, one slot longer, or shorter.
fn call_line(rng: &mut Rng, station: &mut Station) -> String {
    let above = station.slots.saturating_sub(station.clock);
    let jobs: Vec<String> = (0..rng.within(1..=3))
        .map(|_| {
            let length = match rng.below(4) {
                0 => above,
                1 => above + 1,
                _ => rng.within(0..=above),
            };
            format!("({} {})", station.job_number(rng, 2), length.clamp(1, 64))
        })
        .collect();
    format!("(call {})", jobs.join(" "))
}

/// A few clocks at the ends of their range and just past them, 0 among them before and after any other; now and then a call
/// of one slot.
pub fn at_their_ends(rng: &mut Rng) -> Vec<u8> {
    let size = *rng.pick(&[TINY, TINY, SMALL, SMALL, MEDIUM, LARGE, LARGEST]);
    let mut station = Station::head_only(rng, size);
    let mut clocks: Vec<usize> = (0..rng.within(1..=5)).map(|_| near_an_end(rng, station.slots)).collect();
    // In ascending order most are accepted, else those after a late one go back.
    if rng.chance(50) {
        clocks.sort_unstable();
    }
    for clock in clocks {
        station.events.push(format!("(clock {clock})"));
        if rng.chance(40) {
            let number = station.job_number(rng, 0);
            station.events.push(format!("(call ({number} 1))"));
        }
    }
    station.bytes()
}

fn near_an_end(rng: &mut Rng, slots: usize) -> usize {
    *rng.pick(&[0, 0, 0, 1, slots - 1, slots, slots, slots + 1, slots + 1, slots + 2, slots + 2, slots + 3])
}
