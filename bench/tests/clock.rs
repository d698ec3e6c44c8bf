//! The clock: the frames to try and the wrong turns of request 2026-05, and what its readings settle.

mod common;

use bench::frame::Frame;
use bench::head::{self, Head};
use bench::lent::{Lent, BUSY};
use bench::own_slot::{missed, Missed};
use bench::refusal::Refusal;
use bench::text::{lines, Call, Form, Job};
use bench::texts::tables::shown;
use bench::texts::text;
use common::{answers, cells, converted, listing, table};

/// The scope document's text with its clock line at another slot, or without one.
fn document(clock: &str) -> String {
    let head = "(frame 4 2)\n(busy 2 (2 3))\n(preset 1 0 2 1)\n(preset 2 1 1 2)\n";
    format!("{head}{clock}(call (9 2))\n(call (10 1))\n(call (11 1))\n")
}

#[test]
fn the_documents_listing_stays() {
    let expected = "(granted 1 1)\n(granted 2 2)\n(now 2)\n(taken 2)\n(taken 1)\n(refused 8 7)\n\
                    (slot 1 m1 m2)\n(slot 2 m1 -)\n(slot 3 c9 -)\n(slot 4 c10 c9)\n";
    assert_eq!(listing(document("(clock 2)\n").as_bytes()), expected);
    // Nothing can be had in slots 1 and 2.
    for clock in ["", "(clock 0)\n", "(clock 1)\n"] {
        assert_eq!(table(document(clock).as_bytes()), ["m1 m2", "m1 -", "c9 -", "c10 c9"], "{clock}");
    }
}

#[test]
fn the_documents_calls_at_its_last_slots() {
    let text = document("(clock 3)\n");
    assert_eq!(answers(&text), ["(now 3)", "(refused 6 7)", "(taken 1)", "(taken 1)"]);
    assert_eq!(table(text.as_bytes()), ["m1 m2", "m1 -", "o2 -", "c11 c10"]);
    // Jobs 10 and 11 found a place in slot 4 before.
    let text = document("(clock 4)\n");
    assert_eq!(answers(&text), ["(now 4)", "(refused 6 7)", "(refused 7 7)", "(refused 8 7)"]);
    assert_eq!(table(text.as_bytes()), ["m1 m2", "m1 -", "o2 -", "o1 o2"]);
}

#[test]
fn a_call_uses_slots_above_the_clock() {
    for (events, printed, slots) in [
        ("(call (1 2))\n", vec!["(taken 0)"], ["c1", "c1"]),
        ("(clock 0)\n(call (1 2))\n", vec!["(now 0)", "(taken 0)"], ["c1", "c1"]),
        (
            "(clock 1)\n(call (1 2))\n(call (2 1))\n(call (3 1))\n",
            vec!["(now 1)", "(refused 3 7)", "(taken 0)", "(refused 5 7)"],
            ["0", "c2"],
        ),
        ("(clock 2)\n(call (1 1))\n", vec!["(now 2)", "(refused 3 7)"], ["0", "0"]),
        ("(clock 3)\n(call (1 1))\n", vec!["(now 3)", "(refused 3 7)"], ["0", "0"]),
        // A refused clock leaves the clock.
        ("(clock 4)\n(call (1 2))\n", vec!["(refused 2 2)", "(taken 0)"], ["c1", "c1"]),
        ("(clock 1)\n(clock 0)\n(call (1 2))\n", vec!["(now 1)", "(refused 3 6)", "(refused 4 7)"], ["0", "0"]),
        ("(clock 1)\n(clock 4)\n(call (1 1))\n", vec!["(now 1)", "(refused 3 2)", "(taken 0)"], ["0", "c1"]),
    ] {
        let text = format!("(frame 2 1)\n{events}");
        assert_eq!(answers(&text), printed, "{text}");
        assert_eq!(table(text.as_bytes()), slots, "{text}");
    }
}

#[test]
fn an_empty_cell_of_the_clocks_own_slot_spares_nothing() {
    let text = "(frame 2 2)\n(busy 2 (2 2))\n(preset 1 0 0 2)\n(clock 1)\n(call (9 1))\n";
    assert_eq!(answers(text), ["(now 1)", "(taken 1)"]);
    assert_eq!(cells(text), ["o1 0", "c9 -"]);
    // Before the clock line it does.
    let text = text.replace("(clock 1)\n", "");
    assert_eq!(answers(&text), ["(taken 0)"]);
    assert_eq!(cells(&text), ["o1 c9", "o1 -"]);
}

#[test]
fn a_refinement_cell_of_the_clocks_own_slot_is_not_lost() {
    let text = "(frame 2 1)\n(preset 1 0 0 2)\n(clock 1)\n(call (9 1))\n(call (8 1))\n";
    assert_eq!(answers(text), ["(now 1)", "(taken 1)", "(refused 5 7)"]);
    assert_eq!(table(text.as_bytes()), ["o1", "c9"]);
    // Nor under a supply, where it would free a motor of that slot.
    let text = "(frame 2 2)\n(supply 1)\n(preset 1 0 0 2)\n(clock 1)\n(call (9 2))\n(call (8 1))\n";
    assert_eq!(answers(text), ["(now 1)", "(refused 5 7)", "(taken 1)"]);
    assert_eq!(table(text.as_bytes()), ["o1 0", "c8 0"]);
}

#[test]
fn the_range_of_a_clock() {
    for (clocks, printed) in [
        (vec!["0"], vec!["(now 0)"]),
        (vec!["0", "0", "1"], vec!["(now 0)", "(now 0)", "(now 1)"]),
        (vec!["1", "0"], vec!["(now 1)", "(refused 3 6)"]),
        (vec!["1", "0", "2"], vec!["(now 1)", "(refused 3 6)", "(now 2)"]),
        (vec!["2", "3"], vec!["(now 2)", "(now 3)"]),
        (vec!["3", "0", "2", "3"], vec!["(now 3)", "(refused 3 6)", "(refused 4 6)", "(now 3)"]),
        (vec!["4"], vec!["(refused 2 2)"]),
        (vec!["3", "4", "5"], vec!["(now 3)", "(refused 3 2)", "(refused 4 2)"]),
        // In 8, 16, 32 or 64 bits these would be 0.
        (vec!["256", "65536", "4294967296"], vec!["(refused 2 2)", "(refused 3 2)", "(refused 4 2)"]),
        (vec!["18446744073709551616"], vec!["(refused 2 2)"]),
        (vec!["0", "00", "-0", "01"], vec!["(now 0)", "(refused 3 1)", "(refused 4 1)", "(refused 5 1)"]),
    ] {
        let lines: String = clocks.iter().map(|clock| format!("(clock {clock})\n")).collect();
        assert_eq!(answers(&format!("(frame 2 1)\n{lines}")), printed, "{lines}");
    }
}

/// It has an event's form, as it had when it was outside its limits.
#[test]
fn clock_0_ends_the_head() {
    for (text, expected) in [
        ("(clock 0)\n", "(refused 1 3)\n"),
        ("(frame 1 1)\n(clock 0)", "(refused 2 1)\n"),
        ("(frame 1 1)\n(clock 0)\n", "(now 0)\n(slot 1 0)\n"),
        ("(frame 1 1)\n(clock 0)\n(preset 1 0 0 0)\n", "(now 0)\n(refused 3 3)\n(slot 1 0)\n"),
        ("(frame 1 1)\n(clock 0)\n(tie place)\n", "(now 0)\n(tie place)\n(slot 1 0)\n"),
        ("(frame 1 1)\n(preset 1 0 2 0)\n(clock 0)\n", "(refused 2 5)\n"),
    ] {
        assert_eq!(listing(text.as_bytes()), expected, "{text}");
    }
    let rows = converted("(frame 4 2)\n(clock 0)\n(busy 9 (9 9))\n\n1,1,1\r\n");
    assert_eq!(rows, "(frame 4 2)\n(busy 1 (1 1))\n");
}

#[test]
fn the_ends_of_the_longest_and_the_shortest_frame() {
    let called = |slots: usize, clock: usize| answers(&format!("(frame {slots} 1)\n(clock {clock})\n(call (1 1))\n"));
    for slots in [1, 64] {
        let (last, end, past) = (slots, slots + 1, slots + 2);
        assert_eq!(called(slots, 0), ["(now 0)", "(taken 0)"]);
        assert_eq!(called(slots, last - 1), [&format!("(now {})", last - 1), "(taken 0)"]);
        assert_eq!(called(slots, last), [&format!("(now {last})"), "(refused 3 7)"]);
        assert_eq!(called(slots, end), [&format!("(now {end})"), "(refused 3 7)"]);
        assert_eq!(called(slots, past), ["(refused 2 2)", "(taken 0)"]);
    }
    let text = "(frame 64 1)\n(clock 63)\n(call (1 1))\n";
    assert_eq!(cells(text).iter().position(|cells| cells == "c1"), Some(63));
}

/// Jobs run in the clock's own slot and below: their cells stay, and 4 and 9 count them.
#[test]
fn jobs_up_to_the_clock_count() {
    let text = "(frame 2 1)\n(call (5 1))\n(clock 1)\n(call (5 1))\n(clock 2)\n(call (5 1))\n(clock 3)\n(call (5 1))\n";
    let refused = ["(refused 4 4)", "(refused 6 4)", "(refused 8 4)"];
    assert_eq!(answers(text), ["(taken 0)", "(now 1)", refused[0], "(now 2)", refused[1], "(now 3)", refused[2]]);
    assert_eq!(table(text.as_bytes()), ["c5", "0"]);
    // 64 jobs fill slots 1 to 8.
    let jobs: String = (1..=64).map(|number| format!("(call ({number} 1))\n")).collect();
    for clock in [0, 1, 8, 9] {
        let text = format!("(frame 64 8)\n{jobs}(clock {clock})\n(call (65 1))\n");
        assert_eq!(answers(&text).last().expect("an answer"), "(refused 67 9)", "{clock}");
    }
}

fn head(text: &str) -> Head {
    head::read(&mut lines(text.as_bytes())).expect("a good head")
}

#[test]
fn a_frame_is_resumed_at_any_clock_from_0_on() {
    let (head, table) = (head("(frame 2 1)\n"), shown("c7 | 0"));
    let call = Call::new(&[Job { number: 9, length: 1 }]).expect("a call within limits");
    // Job 7 in the clock's own slot, or below, is no fault.
    for (clock, answer, left) in [
        (0, Ok(0), "c7 | c9"),
        (1, Ok(0), "c7 | c9"),
        (2, Err(Refusal::CallInfeasible), "c7 | 0"),
        (3, Err(Refusal::CallInfeasible), "c7 | 0"),
    ] {
        let mut frame = Frame::resume(&head, &table, clock, false).expect("well-formed");
        assert_eq!(frame.now(), clock);
        assert_eq!(frame.call(&call), answer, "{clock}");
        assert_eq!(*frame.table(), shown(left), "{clock}");
    }
    for clock in [4, 5, 64, 256, 1 << 32, usize::MAX] {
        let resumed = Frame::resume(&head, &table, clock, false);
        assert_eq!(resumed, Err(Refusal::TableNotWellFormed), "{clock}");
    }
    // The table is tried at clock 0 too.
    assert_eq!(Frame::resume(&head, &shown("c7 | -"), 0, false), Err(Refusal::TableNotWellFormed));
}

#[test]
fn a_planned_frame_is_at_clock_0() {
    let head = head("(frame 2 1)\n(preset 1 0 0 1)\n");
    let (frame, _) = Frame::plan(&head).expect("a feasible head");
    assert_eq!(frame.now(), 0);
    assert_eq!(Frame::resume(&head, frame.table(), 0, false), Ok(frame));
    // So are the records of a head.
    assert_eq!(Lent::new(&head).frame[..BUSY], [2, 1, 1, 0]);
}

/// What the comparison counts by.
#[test]
fn what_a_text_misses_of_the_clocks_own_slot() {
    let none = Missed::default();
    let spared = "(frame 2 2)\n(busy 2 (2 2))\n(preset 1 0 0 2)\n";
    for (text, expected) in [
        ("(frame 1 1)\n(clock 9)", None),
        ("(frame 1 1)\n(preset 1 0 2 0)\n", None),
        ("(frame 2 1)\n(call (1 2))\n", Some(none)),
        ("(frame 2 1)\n(clock 0)\n(call (1 2))\n(call (2 1))\n", Some(none)),
        ("(frame 2 1)\n(clock 1)\n(call (1 2))\n", Some(Missed { without_place: 1, ..none })),
        ("(frame 2 1)\n(clock 1)\n(call (2 1))\n", Some(Missed { placed_otherwise: 1, ..none })),
        // Each call is held against the table that it finds.
        ("(frame 2 1)\n(clock 1)\n(call (1 2))\n(call (2 2))\n", Some(Missed { without_place: 2, ..none })),
        ("(frame 2 1)\n(clock 2)\n(call (1 2))\n(call (2 1))\n", Some(Missed { without_place: 1, ..none })),
        ("(frame 2 1)\n(clock 3)\n(call (1 1))\n", Some(none)),
        ("(frame 2 1)\n(busy 1 (1 1))\n(clock 1)\n(call (1 1))\n", Some(none)),
        ("(frame 2 1)\n(clock 1)\n(call (1 1) (1 1))\n(call (1 65))\n(call)\n", Some(none)),
        (&format!("{spared}(clock 1)\n(call (9 1))\n"), Some(Missed { placed_otherwise: 1, evicting_more: 1, ..none })),
    ] {
        assert_eq!(missed(text.as_bytes()), expected, "{text}");
    }
}

/// The texts of the comparison miss the clock's own slot often enough, in every way there is.
#[test]
fn seeded_texts_miss_the_clocks_own_slot() {
    let all: Vec<Missed> = (0..5_000).filter_map(|seed| missed(&text(seed).bytes)).collect();
    let count = |is: fn(&Missed) -> bool| all.iter().filter(|missed| is(missed)).count();
    let without = count(|m| m.without_place > 0);
    let (otherwise, evicting) = (count(|m| m.placed_otherwise > 0), count(|m| m.evicting_more > 0));
    println!("{} texts: {without} have calls that meet 7 without the clock's own slot,", all.len());
    println!("{otherwise} calls that leave another table, {evicting} calls that evict more");
    assert!(without > 200 && otherwise > 300 && evicting > 30);
}

/// Whether a text has clocks at the ends of their range or just past it: 0 that is accepted, 0 that is too late, S, S + 1 and
/// S + 2.
fn ends(text: &[u8]) -> [bool; 5] {
    let mut seen = [false; 5];
    let mut lines = lines(text);
    let planned = head::read(&mut lines).ok().and_then(|head| Frame::plan(&head).ok());
    let Some((mut frame, _)) = planned else {
        return seen;
    };
    for line in lines {
        let (late, slots) = (frame.now() > 0, frame.slots());
        let _ = frame.event(line.form);
        if let Some(Form::Clock(t)) = line.form {
            let t = usize::from(t);
            let here = [t == 0 && !late, t == 0 && late, t == slots, t == slots + 1, t == slots + 2];
            seen.iter_mut().zip(here).for_each(|(seen, here)| *seen |= here);
        }
    }
    seen
}

/// The texts of the comparison have clocks at both ends often enough.
#[test]
fn seeded_texts_have_clocks_at_both_ends() {
    let all: Vec<[bool; 5]> = (0..5_000).map(|seed| ends(&text(seed).bytes)).collect();
    let texts: [usize; 5] = std::array::from_fn(|end| all.iter().filter(|seen| seen[end]).count());
    println!("texts with 0 in time, 0 too late, S, S + 1, S + 2: {texts:?}");
    assert!(texts[0] > 300 && texts.into_iter().all(|texts| texts > 70));
}
