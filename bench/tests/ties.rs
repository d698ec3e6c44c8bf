//! The order of ties: the frames to try and the wrong turns of request 2026-02, and what its readings settle.

mod common;

use bench::texts::ties::LACKING_FORM;
use bench::texts::{by_place, text};
use common::{answers, cells, converted, listing, table};

const ONE_AND_TWO: &str = "(preset 1 0 1 0)\n(preset 2 0 2 0)\n";
const FOUR_OF_TWO: &str = "(preset 1 0 2 0)\n(preset 2 0 2 0)\n(preset 3 0 2 0)\n(preset 4 0 2 0)\n";

#[test]
fn whoever_is_on_a_bridge_stays() {
    assert_eq!(cells(&format!("(frame 3 1)\n(tie hold)\n{ONE_AND_TWO}")), ["m2", "m2", "m1"]);
    assert_eq!(cells(&format!("(frame 3 1)\n{ONE_AND_TWO}")), ["m2", "m1", "m2"]);
    assert_eq!(cells(&format!("(frame 4 2)\n(tie hold)\n{FOUR_OF_TWO}")), ["m1 m2", "m3 m4", "m3 m4", "m1 m2"]);
    assert_eq!(cells(&format!("(frame 4 2)\n{FOUR_OF_TWO}")), ["m1 m2", "m3 m4", "m1 m2", "m3 m4"]);
}

#[test]
fn who_is_chosen_changes_and_not_where() {
    // Preset 2 goes from bridge 1 to bridge 2.
    assert_eq!(cells(&format!("(frame 2 2)\n(tie hold)\n(busy 2 (1 1))\n{ONE_AND_TWO}")), ["m2 -", "m1 m2"]);
}

#[test]
fn the_slot_just_before_and_no_other() {
    // In slot 2 nothing is free, so that in slot 3 nobody has a cell in the slot just before.
    assert_eq!(cells(&format!("(frame 4 1)\n(tie hold)\n(busy 1 (2 2))\n{ONE_AND_TWO}")), ["m2", "-", "m1", "m2"]);
    // In slot 3 preset 1 had one, but not just before.
    let text = "(frame 4 1)\n(tie hold)\n(preset 1 0 2 0)\n(preset 2 0 2 0)\n";
    assert_eq!(cells(text), ["m1", "m2", "m2", "m1"]);
    // Jobs of an earlier call, and presets, hold nothing for the jobs of a call.
    let text = "(frame 4 2)\n(tie hold)\n(busy 2 (1 2))\n(preset 7 0 1 0)\n(clock 1)\n(call (1 1) (2 1))\n";
    assert_eq!(cells(text), ["m7 -", "c1 -", "c2 0", "0 0"]);
}

#[test]
fn a_longer_remaining_time_comes_before_a_holder() {
    let text = "(frame 5 1)\n(tie hold)\n(preset 1 0 1 0)\n(preset 2 0 4 0)\n";
    assert_eq!(cells(text), ["m2", "m2", "m2", "m2", "m1"]);
    let text = "(frame 6 1)\n(tie hold)\n(preset 1 0 3 0)\n(preset 2 0 3 0)\n";
    assert_eq!(cells(text), ["m1", "m2", "m2", "m1", "m1", "m2"]);
}

#[test]
fn the_heads_order_holds_for_plan_and_calls() {
    assert_eq!(cells("(frame 3 1)\n(tie hold)\n(call (1 1) (2 2))\n"), ["c2", "c2", "c1"]);
    assert_eq!(cells("(frame 3 1)\n(call (1 1) (2 2))\n"), ["c2", "c1", "c2"]);
    // A head's tie line is not printed; the second one is an event.
    assert_eq!(answers("(frame 3 1)\n(tie hold)\n"), [""; 0]);
    assert_eq!(answers("(frame 3 1)\n(tie hold)\n(tie hold)\n"), ["(tie hold)"]);
    let text = format!("(frame 6 1)\n(tie hold)\n{ONE_AND_TWO}(tie place)\n(call (5 1) (6 2))\n");
    assert_eq!(cells(&text), ["m2", "m2", "m1", "c6", "c5", "c6"]);
    assert_eq!(answers(&text), ["(tie place)", "(taken 0)"]);
    assert_eq!(
        cells("(frame 3 1)\n(tie hold)\n(tie place)\n(call (1 1) (2 2))\n"),
        cells("(frame 3 1)\n(call (1 1) (2 2))\n")
    );
}

#[test]
fn an_event_holds_for_later_calls() {
    let text = "(frame 6 1)\n(preset 9 0 0 0)\n(tie hold)\n(call (1 1) (2 2))\n(tie place)\n(call (3 1) (4 2))\n";
    assert_eq!(cells(text), ["c2", "c2", "c1", "c4", "c3", "c4"]);
    assert_eq!(answers(text), ["(tie hold)", "(taken 0)", "(tie place)", "(taken 0)"]);
    // It comes after the plan, and changes no cell.
    let text = format!("(frame 3 1)\n{ONE_AND_TWO}(tie hold)\n");
    assert_eq!(cells(&text), ["m2", "m1", "m2"]);
}

/// An order holds until the next tie line: neither a call nor a clock ends it, taken or refused.
#[test]
fn an_event_holds_for_all_later_calls() {
    let events = "(call (1 1) (2 2))\n(clock 3)\n(clock 9)\n(call (3 1) (4 2))\n";
    let rest = ["(taken 0)", "(now 3)", "(refused 6 2)", "(taken 0)"];
    for (second, tie, slots) in [
        // Line 2 is of the head. Against the head's order, either way.
        ("(preset 9 0 0 0)", "(tie hold)", ["c2", "c2", "c1", "c4", "c4", "c3"]),
        ("(tie hold)", "(tie place)", ["c2", "c1", "c2", "c4", "c3", "c4"]),
        // The same again.
        ("(tie hold)", "(tie hold)", ["c2", "c2", "c1", "c4", "c4", "c3"]),
        ("(preset 9 0 0 0)", "(tie place)", ["c2", "c1", "c2", "c4", "c3", "c4"]),
    ] {
        let text = format!("(frame 6 1)\n{second}\n{tie}\n{events}");
        assert_eq!(table(text.as_bytes()), slots, "{text}");
        assert_eq!(answers(&text), [&[tie], &rest[..]].concat(), "{text}");
    }
}

#[test]
fn a_refused_line_leaves_the_order() {
    for (line, cause) in [
        ("(tie Hold)", 1),
        ("(tie place )", 1),
        ("", 1),
        ("(clock 5)", 2),
        ("(call (9 65))", 2),
        ("(frame 1 1)", 3),
        ("(busy 1 (1 1))", 3),
        ("(call (9 1) (9 1))", 4),
        ("(call (9 64))", 7),
    ] {
        // Line 2 is of the head.
        let called = |second: &str, tie: &str| {
            let text = format!("(frame 3 1)\n{second}\n{tie}\n{line}\n(call (1 1) (2 2))\n");
            assert_eq!(answers(&text), [tie, &format!("(refused 4 {cause})"), "(taken 0)"], "{text}");
            table(text.as_bytes())
        };
        assert_eq!(called("(preset 8 0 0 0)", "(tie hold)"), ["c2", "c2", "c1"], "{line}");
        assert_eq!(called("(tie hold)", "(tie place)"), ["c2", "c1", "c2"], "{line}");
    }
}

#[test]
fn which_tie_lines_are_the_heads() {
    for (text, expected) in [
        ("(frame 1 1)\n(tie place)\n", "(refused 2 3)\n"),
        ("(frame 1 1)\n(tie place)\n(clock 1)\n", "(refused 2 3)\n"),
        ("(frame 1 1)\n(tie place)\nnonsense\n", "(refused 2 3)\n"),
        ("(tie hold)\n", "(refused 1 3)\n"),
        ("(tie place)\n(frame 1 1)\n", "(refused 1 3)\n"),
        ("(tie hold)\n(frame 1 1)\n", "(refused 1 3)\n"),
        ("nonsense\n(tie place)\n", "(refused 1 1)\n"),
        ("(frame 0 1)\n(tie place)\n", "(refused 1 2)\n"),
        ("(frame 1 1)\n(tie Hold)\n", "(refused 2 1)\n"),
        ("(frame 1 1)\n(tie hold)", "(refused 2 1)\n"),
        ("(frame 1 1)\n(tie place)", "(refused 2 1)\n"),
        // After another line of the head it is an event, after which no line of the head is in its place.
        ("(frame 1 1)\n(busy 1 (1 1))\n(tie hold)\n(preset 1 0 0 0)\n", "(tie hold)\n(refused 4 3)\n(slot 1 -)\n"),
        ("(frame 1 1)\n(tie hold)\n(tie hold)\n(preset 1 0 0 0)\n", "(tie hold)\n(refused 4 3)\n(slot 1 0)\n"),
        ("(frame 1 1)\n(tie hold)\n(tie place)\n(busy 1 (1 1))\n", "(tie place)\n(refused 4 3)\n(slot 1 0)\n"),
        ("(frame 1 1)\n(preset 1 0 0 0)\n(tie place)\n", "(granted 1 0)\n(tie place)\n(slot 1 0)\n"),
        ("(frame 1 1)\n(clock 1)\n(tie place)\n(tie hold)", "(now 1)\n(tie place)\n(refused 4 1)\n(slot 1 0)\n"),
        // A head that does not fit is named by its last line.
        ("(frame 1 1)\n(tie hold)\n(preset 1 0 2 0)\n(tie hold)\n", "(refused 3 5)\n"),
        ("(frame 1 1)\n(tie hold)\n(frame 1 1)\n", "(refused 3 3)\n"),
    ] {
        assert_eq!(listing(text.as_bytes()), expected, "{text}");
    }
}

#[test]
fn ties_without_their_form() {
    for line in LACKING_FORM {
        assert_eq!(listing(format!("(frame 1 1)\n{line}\n").as_bytes()), "(refused 2 1)\n", "{line}");
        assert_eq!(answers(&format!("(frame 1 1)\n(clock 1)\n{line}\n")), ["(now 1)", "(refused 3 1)"], "{line}");
    }
}

#[test]
fn grants_and_lost_cells_do_not_depend_on_the_order() {
    let presets = "(busy 1 (2 2))\n(preset 1 0 2 3)\n(preset 2 1 1 3)\n";
    let granted = |head: &str| {
        let text = format!("{head}{presets}");
        listing(text.as_bytes()).lines().take(2).collect::<Vec<_>>().join(" ")
    };
    assert_eq!(granted("(frame 6 2)\n"), "(granted 1 3) (granted 2 3)");
    assert_eq!(granted("(frame 6 2)\n(tie hold)\n"), "(granted 1 3) (granted 2 3)");
    // One plan, and a call that takes as many cells of it under either order, and puts other jobs into them.
    let called = |tie: &str| format!("(frame 4 1)\n(preset 1 0 1 3)\n(tie {tie})\n(call (7 1) (8 2))\n");
    assert_eq!(answers(&called("place")), ["(tie place)", "(taken 3)"]);
    assert_eq!(answers(&called("hold")), ["(tie hold)", "(taken 3)"]);
    assert_eq!(cells(&called("place")), ["m1", "c8", "c7", "c8"]);
    assert_eq!(cells(&called("hold")), ["m1", "c8", "c8", "c7"]);
}

#[test]
fn a_head_has_one_text() {
    for (input, printed) in [
        ("(frame 4 2)\n(tie hold)\n\n1,1,2\r\n", "(frame 4 2)\n(tie hold)\n(busy 1 (1 2))\n"),
        (
            "(frame 4 2)\n(tie hold)\n(busy 2 (1 4))\n(preset 1 0 0 0)\n\n",
            "(frame 4 2)\n(tie hold)\n(preset 1 0 0 0)\n",
        ),
        ("(frame 4 2)\n(tie hold)\n(tie place)\n\n", "(frame 4 2)\n(tie hold)\n"),
        ("(frame 4 2)\n(busy 1 (1 1))\n(tie hold)\n\n", "(frame 4 2)\n"),
        ("(frame 4 2)\n(tie hold)\n(busy 2 (1 4))\n", "2,1,4\r\n"),
        ("(frame 4 2)\n(tie place)\n\n1,1,2\r\n", "(refused 2 3)\n"),
        ("(frame 4 2)\n(tie)\n\n1,1,2\r\n", "(refused 2 1)\n"),
    ] {
        assert_eq!(converted(input), printed, "{input:?}");
    }
}

/// What the comparison counts by: the same text, hold having no part in it.
#[test]
fn a_text_by_place() {
    for (text, place) in [
        ("(frame 3 1)\n(tie hold)\n(busy 1 (1 1))\n", "(frame 3 1)\n(busy 1 (1 1))\n"),
        ("(frame 3 1)\n(clock 1)\n(tie hold)\n(tie place)\n", "(frame 3 1)\n(clock 1)\n(clock 0)\n(tie place)\n"),
        ("(frame 3 1)\n(tie hold)\n(tie hold)\n(tie hold)\n", "(frame 3 1)\n(clock 0)\n(clock 0)\n"),
        // A tie on line 3 comes to stand on line 2, where place would be the head's fault.
        ("(frame 3 1)\n(tie hold)\n(tie place)\n(tie place)\n", "(frame 3 1)\n(clock 0)\n(tie place)\n"),
        // After a supply line the place is one line further down.
        ("(frame 3 1)\n(supply 1)\n(tie hold)\n(busy 1 (1 1))\n", "(frame 3 1)\n(supply 1)\n(busy 1 (1 1))\n"),
        ("(frame 3 1)\n(supply 1)\n(tie hold)\n(tie place)\n", "(frame 3 1)\n(supply 1)\n(clock 0)\n"),
        ("(frame 3 1)\n(supply 1)\n(clock 1)\n(tie hold)\n", "(frame 3 1)\n(supply 1)\n(clock 1)\n(clock 0)\n"),
        // Nothing holds.
        ("(frame 3 1)\n(busy 1 (1 1))\n(tie place)\n", "(frame 3 1)\n(busy 1 (1 1))\n(tie place)\n"),
        ("(frame 3 1)\n(tie place)\n(tie place)\n", "(frame 3 1)\n(tie place)\n(tie place)\n"),
        ("(frame 3 1)\n(clock 1)\n(tie hold)", "(frame 3 1)\n(clock 1)\n(tie hold)"),
    ] {
        assert_eq!(String::from_utf8_lossy(&by_place(text.as_bytes())), place, "{text}");
    }
}

/// The texts of the comparison ask for the order of ties often enough.
#[test]
fn seeded_texts_tell_the_orders_apart() {
    let (mut accepted, mut held, mut otherwise) = (0, 0, 0);
    for seed in 0..5_000 {
        let text = text(seed).bytes;
        let (held_table, place) = (table(&text), by_place(&text));
        if !held_table.is_empty() {
            let place_table = table(&place);
            assert!(!place_table.is_empty(), "seed {seed}: the head by place is accepted too");
            accepted += 1;
            held += usize::from(place != text);
            otherwise += usize::from(held_table != place_table);
        }
    }
    println!("{accepted} accepted heads, {held} texts with hold, {otherwise} that place would plan otherwise");
    assert!(3 * held > accepted && 4 * otherwise > held);
}
