//! The supply: the frames to try and the wrong turns of request 2026-03, and what its readings settle.

mod common;

use bench::cap::{felt, Felt};
use bench::frame::Frame;
use bench::head::{self, Head};
use bench::refusal::Refusal;
use bench::text::{lines, Call, Job};
use bench::texts::supply::LACKING_FORM;
use bench::texts::tables::shown;
use bench::texts::text;
use common::{answers, cells, converted, listing, table};

#[test]
fn the_supply_caps_each_slot_of_a_plan() {
    // Not all presets in slot 1, though it has bridges for them.
    let three = "(preset 1 0 1 0)\n(preset 2 0 1 0)\n(preset 3 0 1 0)\n";
    assert_eq!(cells(&format!("(frame 2 3)\n(supply 2)\n{three}")), ["m1 m2 0", "m3 0 0"]);
    assert_eq!(cells(&format!("(frame 2 3)\n(supply 3)\n{three}")), ["m1 m2 m3", "0 0 0"]);
    assert_eq!(cells(&format!("(frame 2 3)\n(supply 8)\n{three}")), cells(&format!("(frame 2 3)\n{three}")));
    // Under hold as well: of equal ones those with a cell in the slot just before go first.
    let two = "(preset 1 0 1 0)\n(preset 2 0 2 0)\n";
    assert_eq!(cells(&format!("(frame 3 2)\n(supply 1)\n{two}")), ["m2 0", "m1 0", "m2 0"]);
    assert_eq!(cells(&format!("(frame 3 2)\n(supply 1)\n(tie hold)\n{two}")), ["m2 0", "m2 0", "m1 0"]);
}

#[test]
fn busy_bridges_draw_nothing() {
    assert_eq!(cells("(frame 1 3)\n(supply 1)\n(busy 1 (1 1))\n(preset 1 0 1 0)\n"), ["- m1 0"]);
    let text = "(frame 1 3)\n(supply 2)\n(busy 1 (1 1))\n(preset 1 0 1 0)\n(preset 2 0 1 0)\n";
    assert_eq!(cells(text), ["- m1 m2"]);
}

#[test]
fn required_slots_beyond_the_supply_do_not_fit() {
    let two = "(preset 1 0 1 0)\n(preset 2 0 1 0)\n";
    assert_eq!(listing(format!("(frame 1 2)\n(supply 1)\n{two}").as_bytes()), "(refused 4 5)\n");
    assert_eq!(listing(format!("(frame 1 2)\n(supply 1)\n(tie hold)\n{two}").as_bytes()), "(refused 5 5)\n");
    assert_eq!(cells(&format!("(frame 1 2)\n(supply 2)\n{two}")), ["m1 m2"]);
    // Different slots decide under a supply too.
    assert_eq!(listing(b"(frame 2 3)\n(supply 2)\n(preset 1 0 3 0)\n"), "(refused 3 5)\n");
}

#[test]
fn grants_stop_at_the_supply() {
    let granted = |supply: &str| {
        let text = format!("(frame 2 3)\n{supply}(preset 1 1 1 1)\n(preset 2 0 0 2)\n(preset 3 2 0 2)\n");
        listing(text.as_bytes()).lines().take(3).collect::<Vec<_>>().join(" ")
    };
    assert_eq!(granted(""), "(granted 1 1) (granted 2 2) (granted 3 2)");
    assert_eq!(granted("(supply 2)\n"), "(granted 1 1) (granted 2 2) (granted 3 0)");
    assert_eq!(granted("(supply 1)\n"), "(granted 1 0) (granted 2 1) (granted 3 0)");
}

#[test]
fn the_smaller_of_the_empty_cells_and_the_motors_that_are_left() {
    let two = "(frame 1 4)\n(supply 3)\n(preset 1 0 1 0)\n(preset 2 0 1 0)\n";
    assert_eq!(cells(&format!("{two}(call (9 1))\n")), ["m1 m2 c9 0"]);
    assert_eq!(answers(&format!("{two}(call (9 1))\n")), ["(taken 0)"]);
    assert_eq!(answers(&format!("{two}(call (9 1) (8 1))\n")), ["(refused 5 7)"]);
    // The cells of calls hold motors too.
    let calls = "(frame 1 3)\n(supply 2)\n(call (7 1) (8 1))\n(call (9 1))\n";
    assert_eq!(answers(calls), ["(taken 0)", "(refused 4 7)"]);
    assert_eq!(table(calls.as_bytes()), ["c7 c8 0"]);
}

#[test]
fn a_lost_cell_frees_a_motor() {
    let text = "(frame 1 3)\n(supply 2)\n(preset 1 0 1 0)\n(preset 2 0 0 1)\n(call (9 1))\n";
    assert_eq!(cells(text), ["m1 c9 0"]);
    assert_eq!(answers(text), ["(taken 1)"]);
    // Without a supply there is an empty bridge, and nothing is lost.
    assert_eq!(cells(&text.replace("(supply 2)\n", "")), ["m1 o2 c9"]);
}

fn head(text: &str) -> Head {
    head::read(&mut lines(text.as_bytes())).expect("a good head")
}

fn resumed(text: &str, cells: &str) -> Result<Frame, Refusal> {
    Frame::resume(&head(text), &shown(cells), 0, false)
}

fn call(frame: &mut Frame, number: u8, length: u8) -> Result<u32, Refusal> {
    frame.call(&Call::new(&[Job { number, length }]).expect("a call within limits"))
}

#[test]
fn a_lost_cell_may_end_empty() {
    let mut frame = resumed("(frame 1 2)\n(supply 1)\n(preset 1 0 0 1)\n", "0 o1").expect("well-formed");
    assert_eq!(call(&mut frame, 9, 1), Ok(1));
    assert_eq!(*frame.table(), shown("c9 0"));
    // Without the supply it stays.
    let mut frame = resumed("(frame 1 2)\n(preset 1 0 0 1)\n", "0 o1").expect("well-formed");
    assert_eq!(call(&mut frame, 9, 1), Ok(0));
    assert_eq!(*frame.table(), shown("c9 o1"));
    let text = "(frame 2 3)\n(supply 2)\n(preset 1 0 0 2)\n";
    let mut frame = resumed(text, "0 0 o1 | c7 c8 0").expect("well-formed");
    assert_eq!(call(&mut frame, 9, 1), Ok(0));
    assert_eq!(*frame.table(), shown("c9 0 o1 | c7 c8 0"));
    assert_eq!(call(&mut frame, 10, 1), Ok(1));
    assert_eq!(*frame.table(), shown("c9 c10 0 | c7 c8 0"));
    assert_eq!(call(&mut frame, 11, 1), Err(Refusal::CallInfeasible));
    assert_eq!(*frame.table(), shown("c9 c10 0 | c7 c8 0"));
}

#[test]
fn a_table_beyond_the_supply_is_not_resumed() {
    let presets = "(preset 1 0 0 2)\n";
    for (supply, cells, fits) in [
        ("(supply 1)\n", "c7 o1 | 0 0", false),
        ("(supply 2)\n", "c7 o1 | 0 0", true),
        ("(supply 8)\n", "c7 o1 | 0 0", true),
        ("", "c7 o1 | 0 0", true),
        ("(supply 1)\n", "0 0 | c7 c8", false),
        ("(supply 1)\n", "0 o1 | c7 0", true),
    ] {
        let text = format!("(frame 2 2)\n{supply}{presets}");
        assert_eq!(resumed(&text, cells).is_ok(), fits, "{supply} {cells}");
        // Slots that have gone by count too.
        assert_eq!(Frame::resume(&head(&text), &shown(cells), 3, false).is_ok(), fits, "{supply} {cells}");
    }
    let busy = "(frame 1 3)\n(supply 1)\n(busy 1 (1 1))\n(preset 1 0 0 1)\n";
    assert!(resumed(busy, "- o1 0").is_ok());
    assert_eq!(resumed(busy, "- o1 c7"), Err(Refusal::TableNotWellFormed));
}

#[test]
fn where_a_supply_line_stands() {
    for (text, expected) in [
        ("(frame 1 1)\n(supply 1)\n", "(slot 1 0)\n"),
        ("(frame 1 1)\n(supply 8)\n", "(slot 1 0)\n"),
        ("(frame 1 1)\n(supply 0)\n", "(refused 2 2)\n"),
        ("(frame 1 1)\n(supply 9)\n", "(refused 2 2)\n"),
        ("(frame 1 1)\n(supply 99)\n", "(refused 2 2)\n"),
        ("(frame 1 1)\n(supply 257)\n", "(refused 2 2)\n"),
        ("(frame 1 1)\n(supply 18446744073709551617)\n", "(refused 2 2)\n"),
        ("(frame 1 1)\n(supply 03)\n", "(refused 2 1)\n"),
        ("(frame 1 1)\n(supply 1)", "(refused 2 1)\n"),
        // Elsewhere it is out of its place, whatever it says.
        ("(supply 1)\n", "(refused 1 3)\n"),
        ("(supply 0)\n(frame 1 1)\n", "(refused 1 3)\n"),
        ("(frame 1 1)\n(supply 1)\n(supply 1)\n", "(refused 3 3)\n"),
        ("(frame 1 1)\n(supply 1)\n(supply 9)\n", "(refused 3 3)\n"),
        ("(frame 1 1)\n(tie hold)\n(supply 1)\n", "(refused 3 3)\n"),
        ("(frame 1 1)\n(supply 1)\n(tie hold)\n(supply 1)\n", "(refused 4 3)\n"),
        ("(frame 1 1)\n(busy 1 (1 1))\n(supply 0)\n", "(refused 3 3)\n"),
        ("(frame 1 1)\n(preset 1 0 0 0)\n(supply 1)\n", "(refused 3 3)\n"),
        ("(frame 1 1)\n(clock 1)\n(supply 1)\n", "(now 1)\n(refused 3 3)\n(slot 1 0)\n"),
        ("(frame 1 1)\n(clock 1)\n(supply 9)\n", "(now 1)\n(refused 3 3)\n(slot 1 0)\n"),
        ("(frame 1 1)\n(clock 1)\n(supply 03)\n", "(now 1)\n(refused 3 1)\n(slot 1 0)\n"),
        // An earlier line at fault decides.
        ("(frame 0 1)\n(supply 0)\n", "(refused 1 2)\n"),
        ("(frame 1 1)\n(tie place)\n(supply 1)\n", "(refused 2 3)\n"),
        ("(frame 1 1)\n(supply 0)\n(tie place)\n", "(refused 2 2)\n"),
    ] {
        assert_eq!(listing(text.as_bytes()), expected, "{text}");
    }
}

#[test]
fn the_heads_tie_line_comes_after_it() {
    for (text, expected) in [
        ("(frame 1 1)\n(supply 1)\n(tie hold)\n", "(slot 1 0)\n"),
        ("(frame 1 1)\n(supply 1)\n(tie place)\n", "(refused 3 3)\n"),
        ("(frame 1 1)\n(supply 1)\n(tie place)\n(clock 1)\n", "(refused 3 3)\n"),
        // The second one is an event, and ends the head.
        ("(frame 1 1)\n(supply 1)\n(tie hold)\n(tie hold)\n", "(tie hold)\n(slot 1 0)\n"),
        ("(frame 1 1)\n(supply 1)\n(tie hold)\n(tie place)\n", "(tie place)\n(slot 1 0)\n"),
        (
            "(frame 1 1)\n(supply 1)\n(busy 1 (1 1))\n(tie hold)\n(preset 1 0 0 0)\n",
            "(tie hold)\n(refused 5 3)\n(slot 1 -)\n",
        ),
    ] {
        assert_eq!(listing(text.as_bytes()), expected, "{text}");
    }
}

#[test]
fn supplies_without_their_form() {
    for line in LACKING_FORM {
        assert_eq!(listing(format!("(frame 1 1)\n{line}\n").as_bytes()), "(refused 2 1)\n", "{line}");
        assert_eq!(answers(&format!("(frame 1 1)\n(clock 1)\n{line}\n")), ["(now 1)", "(refused 3 1)"], "{line}");
    }
}

#[test]
fn a_head_has_one_text() {
    for (input, printed) in [
        ("(frame 4 2)\n(supply 1)\n\n1,1,2\r\n", "(frame 4 2)\n(supply 1)\n(busy 1 (1 2))\n"),
        ("(frame 4 2)\n(supply 8)\n\n", "(frame 4 2)\n(supply 8)\n"),
        (
            "(frame 4 2)\n(supply 2)\n(tie hold)\n(busy 2 (1 4))\n(preset 1 0 0 0)\n\n",
            "(frame 4 2)\n(supply 2)\n(tie hold)\n(preset 1 0 0 0)\n",
        ),
        ("(frame 4 2)\n(supply 2)\n(busy 2 (1 4))\n", "2,1,4\r\n"),
        ("(frame 4 2)\n(tie hold)\n(supply 2)\n\n", "(refused 3 3)\n"),
        ("(frame 4 2)\n(supply 9)\n\n1,1,2\r\n", "(refused 2 2)\n"),
    ] {
        assert_eq!(converted(input), printed, "{input:?}");
    }
    // The lines are counted anew, for 5 to name the last one.
    let mut counted = head("(frame 4 2)\n(supply 2)\n(tie hold)\n(busy 1 (1 1))\n(preset 1 0 0 0)\n");
    assert_eq!(counted.lines, 5);
    counted.set_busy([1, 1, 0, 0, 0, 0, 0, 0]);
    assert_eq!(counted.lines, 6);
}

#[test]
fn what_a_text_feels_of_its_supply() {
    let none = Felt::default();
    for (text, expected) in [
        ("(frame 1 2)\n", None),
        ("(frame 1 2)\n(supply 9)\n", None),
        ("(frame 1 2)\n(supply 1)\n", Some(none)),
        ("(frame 1 2)\n(supply 1)\n(preset 1 0 1 0)\n(preset 2 0 1 0)\n", Some(Felt { head_refused: true, ..none })),
        ("(frame 1 2)\n(supply 1)\n(preset 1 0 2 0)\n", Some(none)),
        (
            "(frame 1 2)\n(supply 1)\n(preset 1 0 0 1)\n(preset 2 0 0 1)\n(call (9 1))\n(call (8 1))\n",
            Some(Felt { granted_less: true, planned_otherwise: true, evicting_more: 1, without_place: 1, ..none }),
        ),
        (
            "(frame 2 2)\n(supply 1)\n(preset 1 0 1 0)\n(preset 2 0 1 0)\n(call (9 3))\n",
            Some(Felt { planned_otherwise: true, ..none }),
        ),
    ] {
        assert_eq!(felt(text.as_bytes()), expected, "{text}");
    }
}

/// The texts of the comparison feel their supply often enough, in every way there is.
#[test]
fn seeded_texts_feel_their_supply() {
    let all: Vec<Felt> = (0..5_000).filter_map(|seed| felt(&text(seed).bytes)).collect();
    let count = |is: fn(&Felt) -> bool| all.iter().filter(|felt| is(felt)).count();
    let (refused, less, otherwise) =
        (count(|f| f.head_refused), count(|f| f.granted_less), count(|f| f.planned_otherwise));
    let (evicting, without) = (count(|f| f.evicting_more > 0), count(|f| f.without_place > 0));
    println!(
        "{} texts with a supply: by it {refused} meet 5, {less} grant less, {otherwise} have another plan;",
        all.len()
    );
    println!("{evicting} have calls that evict more by it, {without} calls that meet 7 by it");
    assert!(all.len() > 1_000 && refused > 30 && less > 300 && otherwise > 400 && evicting > 200 && without > 200);
}
