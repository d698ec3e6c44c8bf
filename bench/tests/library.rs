//! The library's running frame held against the independent planner's on seeded texts and on seeded tables that no text
//! leaves: every number, byte and cell that a text, an event or a plan leaves, whatever stood there before. And events and
//! plans on records that are at fault themselves.
#![cfg(feature = "archive")]

use bench::frame::{Answer, Frame, Table, CELLS};
use bench::head::Head;
use bench::lent::{Lent, BUSY, PRESET_BYTES, SUPPLY, TIE, TIE_NOW};
use bench::proved::{self, Running};
use bench::refusal::Refusal;
use bench::rows::read_head;
use bench::text::lines;
use bench::texts::rng::Rng;
use bench::texts::station::{Size, Station, MEDIUM, SMALL};
use bench::texts::tables::{shown, table};
use bench::texts::text;

const CLOCK: usize = 3;

/// Records with anything in them, both orders of ties among it.
fn noise(rng: &mut Rng) -> Running {
    let mut frame = std::array::from_fn(|_| rng.word());
    [TIE, TIE_NOW].into_iter().for_each(|place| frame[place] = any_order(rng));
    let (presets, table) = (std::array::from_fn(|_| rng.word() as u8), std::array::from_fn(|_| rng.word() as u16));
    Running { frame, presets, table }
}

fn any_order(rng: &mut Rng) -> u64 {
    let hold = rng.chance(70);
    order(rng, hold)
}

/// A number for this order of ties. Every one but 0 is hold, also one that has nothing but 0 in its lower half or its lowest
/// bits.
fn order(rng: &mut Rng, hold: bool) -> u64 {
    let any = 1 + rng.word() / 2;
    if hold {
        *rng.pick(&[1, 2, 1 << 32, 1 << 63, any])
    } else {
        0
    }
}

/// Puts an order of ties into a number, which stays where it says that already.
fn set_tie(number: &mut u64, hold: bool) {
    if (*number != 0) != hold {
        *number = u64::from(hold);
    }
}

/// Puts a head but for its order of ties into the records.
fn set_head(running: &mut Running, head: &Head) {
    let Lent { frame, presets } = Lent::new(head);
    running.frame[..CLOCK].copy_from_slice(&frame[..CLOCK]);
    running.frame[BUSY..=SUPPLY].copy_from_slice(&frame[BUSY..=SUPPLY]);
    let records = 4 * head.presets.len();
    running.presets[..records].copy_from_slice(&presets[..records]);
}

fn set_table(table: &mut Table, head: &Head, frame: &Frame) {
    let cells = head.slots * head.bridges;
    table[..cells].copy_from_slice(&frame.table()[..cells]);
}

/// What a text leaves of these records, and its answer; where it runs, how long its listing is does not matter here.
fn left(text: &[u8], mut running: Running) -> (Running, Result<(), (u32, Refusal)>) {
    let head = match read_head(text) {
        Ok(head) => head,
        Err(fault) => return (running, Err(fault)),
    };
    set_head(&mut running, &head);
    let Ok((mut frame, _)) = Frame::plan(&head) else {
        set_tie(&mut running.frame[TIE], head.hold);
        return (running, Err((head.lines, Refusal::HeadInfeasible)));
    };
    lines(text).skip(head.lines as usize).for_each(|line| {
        let _ = frame.event(line.form);
    });
    running.frame[CLOCK] = frame.now() as u64;
    running.frame[TIE..].copy_from_slice(&[u64::from(head.hold), u64::from(frame.hold()), 0]);
    set_table(&mut running.table, &head, &frame);
    (running, Ok(()))
}

#[test]
fn a_text_leaves_its_frame() {
    let (mut rng, mut out) = (Rng::new(2), vec![0; proved::OUT]);
    let mut seen = [0; 13];
    for seed in 0..5_000 {
        let text = text(seed).bytes;
        let mut running = noise(&mut rng);
        let (expected, answer) = left(&text, running.clone());
        let (cause, end) = proved::run_text_over(&text, &mut running, &mut out);
        match answer {
            Ok(()) => assert_eq!(cause, 0, "seed {seed}"),
            Err((line, refusal)) => assert_eq!((cause, end), (refusal.number().into(), line.into()), "seed {seed}"),
        }
        assert!(running == expected, "seed {seed}");
        seen[cause as usize] += 1;
    }
    println!("texts by their answer {seen:?}");
    assert!([0, 1, 2, 3, 4, 5, 9, 10].into_iter().all(|cause| seen[cause] > 0));
}

/// The number that goes with an event's answer.
fn number(answer: Result<Answer, Refusal>) -> Result<u64, u32> {
    match answer {
        Ok(Answer::Now(clock)) => Ok(clock as u64),
        Ok(Answer::Taken(cells)) => Ok(u64::from(cells)),
        Ok(Answer::Tie { hold }) => Ok(u64::from(hold)),
        Err(refusal) => Err(u32::from(refusal.number())),
    }
}

/// A frame as it stands in the records, with other numbers for the same orders of ties and anything in the reserved one.
fn start(rng: &mut Rng, head: &Head, frame: &Frame) -> Running {
    let mut running = Running { frame: [0; 16], presets: [0; PRESET_BYTES], table: [0; CELLS] };
    set_head(&mut running, head);
    running.frame[CLOCK] = frame.now() as u64;
    running.frame[TIE..].copy_from_slice(&[order(rng, head.hold), order(rng, frame.hold()), rng.word()]);
    set_table(&mut running.table, head, frame);
    running
}

/// How many events there were, how many ties and evicting calls among them, and how many of the evicted cells ended empty.
#[derive(Default)]
struct Seen {
    events: usize,
    ties: usize,
    evicting: usize,
    left_empty: usize,
}

/// The events of a text, on the plan of its head.
fn follow(rng: &mut Rng, text: &[u8], seen: &mut Seen) {
    let Ok(head) = read_head(text) else {
        return;
    };
    let Ok((planned, _)) = Frame::plan(&head) else {
        return;
    };
    // The order in force need not be the head's.
    let frame = Frame::resume(&head, planned.table(), 0, rng.chance(50)).expect("a plan is well-formed");
    follow_events(rng, text, &head, frame, seen);
}

/// The lines of a text after its head, on any frame of it.
fn follow_events(rng: &mut Rng, text: &[u8], head: &Head, mut frame: Frame, seen: &mut Seen) {
    let mut running = start(rng, head, &frame);
    let events = text.split_inclusive(|&byte| byte == b'\n').zip(lines(text)).skip(head.lines as usize);
    for (bytes, line) in events.take(60) {
        let (before, mut expected) = (*frame.table(), running.clone());
        let answer = frame.event(line.form);
        expected.frame[CLOCK] = frame.now() as u64;
        set_tie(&mut expected.frame[TIE_NOW], frame.hold());
        set_table(&mut expected.table, head, &frame);
        assert_eq!(proved::event(&mut running, bytes), number(answer), "{head:?} {before:?} {}", bytes.escape_ascii());
        assert!(running == expected, "{head:?} {before:?} {}", bytes.escape_ascii());
        seen.events += 1;
        seen.ties += usize::from(matches!(answer, Ok(Answer::Tie { .. })));
        seen.evicting += usize::from(matches!(answer, Ok(Answer::Taken(1..))));
        seen.left_empty += before.iter().zip(frame.table()).filter(|&(&old, &new)| old >> 8 == 3 && new == 0).count();
    }
}

#[test]
fn events_leave_the_clock_the_order_in_force_and_the_table() {
    let (mut rng, mut seen) = (Rng::new(3), Seen::default());
    for seed in 0..3_000 {
        follow(&mut rng, &text(seed).bytes, &mut seen);
    }
    let Seen { events, ties, .. } = seen;
    println!("{events} events, {ties} of them ties");
    assert!(events > 10_000 && ties > 500);
}

/// Presets and jobs stand on any bridges in these tables, so that under a supply an evicted cell can end empty while a job
/// takes a lower bridge of its slot.
#[test]
fn events_on_tables_that_no_text_leaves() {
    let (mut rng, mut seen) = (Rng::new(5), Seen::default());
    for seed in 0..6_000 {
        let size = *rng.pick(&[SMALL, SMALL, MEDIUM]);
        let mut station = Station::new(&mut Rng::new(seed), Size { bridges: (2, size.bridges.1), ..size });
        if rng.chance(70) {
            let motors = rng.within(1..=station.bridges);
            station.set_supply(motors);
        }
        let text = station.bytes();
        let head = read_head(&text).expect("the station's head is good");
        if let Some(table) = table(&mut rng, &head) {
            let clock = if rng.chance(60) { 0 } else { rng.within(1..=head.slots + 1) };
            let frame = Frame::resume(&head, &table, clock, rng.chance(50)).expect("the table is well-formed");
            follow_events(&mut rng, &text, &head, frame, &mut seen);
        }
    }
    let Seen { events, evicting, left_empty, .. } = seen;
    println!("{events} events, {evicting} of them evicting; {left_empty} evicted cells end empty");
    assert!(events > 10_000 && evicting > 1_000 && left_empty > 300);
}

/// The records of a head with these cells, its order of ties in force.
fn lent(head: &str, clock: u64, cells: &str) -> Running {
    let Lent { frame, presets } = Lent::new(&read_head(head.as_bytes()).expect("a good head"));
    let (frame, presets) = (frame.try_into().expect("16 numbers"), presets.try_into().expect("32 records"));
    let mut running = Running { frame, presets, table: shown(cells) };
    running.frame[CLOCK] = clock;
    running
}

/// The frames that request 2026-03 lends: line by line the answer and the cells that are left.
#[test]
fn an_evicted_cell_may_end_empty() {
    let wide = "(frame 2 3)\n(supply 2)\n(preset 1 0 0 2)\n";
    for (head, cells, line, answer, left) in [
        ("(frame 1 2)\n(supply 1)\n(preset 1 0 0 1)\n", "0 o1", "(call (9 1))\n", Ok(1), "c9 0"),
        ("(frame 1 2)\n(preset 1 0 0 1)\n", "0 o1", "(call (9 1))\n", Ok(0), "c9 o1"),
        (wide, "0 0 o1 | c7 c8 0", "(call (9 1))\n", Ok(0), "c9 0 o1 | c7 c8 0"),
        (wide, "c9 0 o1 | c7 c8 0", "(call (10 1))\n", Ok(1), "c9 c10 0 | c7 c8 0"),
        (wide, "c9 c10 0 | c7 c8 0", "(call (11 1))\n", Err(7), "c9 c10 0 | c7 c8 0"),
    ] {
        let mut running = lent(head, 0, cells);
        assert_eq!(proved::event(&mut running, line.as_bytes()), answer, "{cells} {line}");
        assert_eq!(running.table, shown(left), "{cells} {line}");
    }
}

/// The frames of request 2026-05: at which clock which line is answered what, and leaves which cells. A job in the clock's own
/// slot or below is no fault.
#[test]
fn a_call_uses_slots_above_the_clock() {
    let (one, two) = ("(frame 2 1)\n", "(frame 2 2)\n(busy 2 (2 2))\n(preset 1 0 0 2)\n");
    for (head, clock, cells, line, answer, left) in [
        (one, 0, "0 | 0", "(call (9 2))\n", Ok(0), "c9 | c9"),
        (one, 1, "0 | 0", "(call (9 2))\n", Err(7), "0 | 0"),
        (one, 1, "0 | 0", "(call (9 1))\n", Ok(0), "0 | c9"),
        (one, 1, "c7 | 0", "(call (9 1))\n", Ok(0), "c7 | c9"),
        (one, 2, "c7 | 0", "(call (9 1))\n", Err(7), "c7 | 0"),
        (one, 3, "c7 | 0", "(call (9 1))\n", Err(7), "c7 | 0"),
        (one, 1, "c7 | 0", "(call (7 1))\n", Err(4), "c7 | 0"),
        (two, 0, "o1 0 | o1 -", "(call (9 1))\n", Ok(0), "o1 c9 | o1 -"),
        (two, 1, "o1 0 | o1 -", "(call (9 1))\n", Ok(1), "o1 0 | c9 -"),
        (two, 2, "o1 0 | o1 -", "(call (9 1))\n", Err(7), "o1 0 | o1 -"),
    ] {
        let mut running = lent(head, clock, cells);
        assert_eq!(proved::event(&mut running, line.as_bytes()), answer, "{clock} {cells} {line}");
        assert_eq!(running, lent(head, clock, left), "{clock} {cells} {line}");
    }
}

#[test]
fn a_clock_has_its_range() {
    for (clock, line, answer) in [
        (0, "(clock 0)\n", Ok(0)),
        (0, "(clock 3)\n", Ok(3)),
        (0, "(clock 4)\n", Err(2)),
        (0, "(clock 4294967296)\n", Err(2)),
        (1, "(clock 0)\n", Err(6)),
        (1, "(clock 1)\n", Ok(1)),
        (3, "(clock 2)\n", Err(6)),
        (3, "(clock 3)\n", Ok(3)),
        (3, "(clock 4)\n", Err(2)),
    ] {
        let mut running = lent("(frame 2 1)\n", clock, "c7 | 0");
        assert_eq!(proved::event(&mut running, line.as_bytes()), answer, "{clock} {line}");
        assert_eq!(running, lent("(frame 2 1)\n", answer.unwrap_or(clock), "c7 | 0"), "{clock} {line}");
    }
}

/// The answer to a tie line on so many numbers, bytes and cells of records that it must leave as they are.
fn refused(records: &Running, [numbers, bytes, cells]: [usize; 3], line: &[u8]) -> u32 {
    let mut left = records.clone();
    let (frame, presets, table) = (&mut left.frame[..numbers], &left.presets[..bytes], &mut left.table[..cells]);
    let (cause, number) = proved::event_over(frame, presets, table, line);
    assert!(number == 0 && left == *records, "{}", line.escape_ascii());
    cause
}

const WHOLE: [usize; 3] = [16, PRESET_BYTES, CELLS];

/// A frame of two slots and one bridge without presets, and tie lines that would change its order.
fn small_frames() -> [(Running, &'static [u8]); 2] {
    let mut running = Running { frame: [0; 16], presets: [0; PRESET_BYTES], table: [0; CELLS] };
    running.frame[..=CLOCK].copy_from_slice(&[2, 1, 0, 0]);
    let mut holding = running.clone();
    holding.frame[TIE_NOW] = 1;
    [(running, b"(tie hold)\n"), (holding, b"(tie place)\n")]
}

/// No text yields a head with such a supply, not even one whose lower half or lowest byte would do.
const NO_SUPPLY: [u64; 6] = [9, 64, 256 + 2, (1 << 32) + 1, 1 << 63, u64::MAX];

/// Of a frame of two slots; the lower half or the lowest byte of some would do.
const NO_CLOCK: [u64; 6] = [4, 64, 256, 1 << 32, (1 << 32) + 1, u64::MAX];

/// A tie has no cause of its own, yet it meets 2 and 11 of what is lent.
#[test]
fn a_tie_on_a_frame_at_fault_is_refused() {
    let faults = [(0, 0, 2), (0, 65, 2), (1, 9, 2), (2, 33, 2), (BUSY, 4, 2)];
    let (supplies, clocks) = (NO_SUPPLY.map(|motors| (SUPPLY, motors, 2)), NO_CLOCK.map(|clock| (CLOCK, clock, 11)));
    for (place, number, cause) in faults.into_iter().chain(supplies).chain(clocks) {
        let answers = small_frames().map(|(mut running, line)| {
            running.frame[place] = number;
            refused(&running, WHOLE, line)
        });
        assert_eq!(answers, [cause; 2], "{number} at {place}");
    }
    let answers = small_frames().map(|(mut running, line)| {
        running.table[1] = 2 * 256 + 1;
        refused(&running, WHOLE, line)
    });
    assert_eq!(answers, [11; 2]);
}

/// Slots that have gone by count too.
#[test]
fn a_table_beyond_the_supply_is_refused() {
    let (jobs, line) = ([4 * 256 + 7, 4 * 256 + 8], b"(clock 3)\n");
    for (slot, clock) in [(0, 0), (1, 0), (0, 1), (1, 1), (0, 2), (0, 3), (1, 3)] {
        let mut running = Running { frame: [0; 16], presets: [0; PRESET_BYTES], table: [0; CELLS] };
        running.frame[..=CLOCK].copy_from_slice(&[2, 2, 0, clock]);
        running.table[2 * slot..][..2].copy_from_slice(&jobs);
        running.frame[SUPPLY] = 1;
        assert_eq!(refused(&running, WHOLE, line), 11);
        for motors in [0, 2, 8] {
            running.frame[SUPPLY] = motors;
            assert_eq!(proved::event(&mut running.clone(), line), Ok(3), "{motors}");
        }
    }
}

#[test]
fn a_plan_for_no_supply_is_refused() {
    for motors in NO_SUPPLY {
        let mut running = noise(&mut Rng::new(motors));
        running.frame[..CLOCK].copy_from_slice(&[2, 1, 0]);
        running.frame[BUSY..SUPPLY].fill(0);
        running.frame[SUPPLY] = motors;
        let (expected, mut grants) = (running.clone(), [7; proved::GRANTS]);
        assert_eq!(proved::plan(&mut running, &mut grants), 2, "{motors}");
        assert!(running == expected && grants == [7; proved::GRANTS], "{motors}");
    }
}

/// 8 comes before 2, and 2 before 11.
#[test]
fn a_tie_on_records_too_short_is_refused() {
    for lengths in [[15, PRESET_BYTES, CELLS], [16, PRESET_BYTES - 1, CELLS], [16, PRESET_BYTES, CELLS - 1], [0; 3]] {
        let answers = small_frames().map(|(mut running, line)| {
            let short = refused(&running, lengths, line);
            running.frame[CLOCK] = u64::MAX;
            running.frame[0] = 65;
            [short, refused(&running, lengths, line), refused(&running, WHOLE, line)]
        });
        assert_eq!(answers, [[8, 8, 2]; 2], "{lengths:?}");
    }
}

/// The plan of a head under one order or the other, whatever order is in force; none if it is refused.
fn planned(rng: &mut Rng, head: &Head, hold: bool) -> Option<Table> {
    let head = Head { hold, ..head.clone() };
    let planned = Frame::plan(&head).ok();
    let mut running = noise(rng);
    set_head(&mut running, &head);
    running.frame[TIE] = order(rng, hold);
    let (mut expected, mut grants, mut expected_grants) = (running.clone(), [7; proved::GRANTS], [7; proved::GRANTS]);
    if let Some((frame, granted)) = &planned {
        set_table(&mut expected.table, &head, frame);
        expected_grants = *granted;
    }
    let cause = if planned.is_some() { 0 } else { 5 };
    assert_eq!(proved::plan(&mut running, &mut grants), cause, "{head:?}");
    assert!(running == expected && grants == expected_grants, "{head:?}");
    planned.map(|(frame, _)| *frame.table())
}

#[test]
fn a_plan_heeds_the_heads_order_alone() {
    let (mut rng, mut otherwise) = (Rng::new(4), 0);
    for seed in 0..3_000 {
        if let Ok(head) = read_head(&text(seed).bytes) {
            otherwise += usize::from(planned(&mut rng, &head, false) != planned(&mut rng, &head, true));
        }
    }
    println!("{otherwise} heads are planned otherwise under hold");
    assert!(otherwise > 300);
}
