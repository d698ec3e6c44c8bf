//! The listings and frames that the scope document gives, and the readings of it that were settled.

fn listing(text: &str) -> String {
    let mut out = Vec::new();
    bench::planner::listing(text.as_bytes(), &mut out);
    String::from_utf8(out).expect("listings are plain")
}

/// The lines of a listing that start so.
fn lines(text: &str, start: &str) -> Vec<String> {
    listing(text).lines().filter(|line| line.starts_with(start)).map(str::to_owned).collect()
}

fn refusals(text: &str) -> Vec<String> {
    lines(text, "(refused ")
}

#[test]
fn the_listing_whole() {
    let text = "(frame 4 2)\n(busy 2 (2 3))\n(preset 1 0 2 1)\n(preset 2 1 1 2)\n\
                (clock 2)\n(call (9 2))\n(call (10 1))\n(call (11 1))\n";
    let expected = "(granted 1 1)\n(granted 2 2)\n(now 2)\n(taken 2)\n(taken 1)\n(refused 8 7)\n\
                    (slot 1 m1 m2)\n(slot 2 m1 -)\n(slot 3 c9 -)\n(slot 4 c10 c9)\n";
    assert_eq!(listing(text), expected);
}

#[test]
fn grants_of_figure_3_7() {
    let text =
        "(frame 10 3)\n(preset 1 0 5 4)\n(preset 2 0 4 4)\n(preset 3 0 3 4)\n(preset 4 0 3 3)\n(preset 5 0 2 3)\n";
    let granted = lines(text, "(granted");
    assert_eq!(granted, ["(granted 1 4)", "(granted 2 4)", "(granted 3 4)", "(granted 4 1)", "(granted 5 0)"]);
}

#[test]
fn different_slots_decide() {
    let presets = "(preset 1 0 3 0)\n(preset 2 0 3 0)\n";
    assert_eq!(refusals(&format!("(frame 4 3)\n(busy 2 (2 4))\n(busy 3 (2 4))\n{presets}")), ["(refused 5 5)"]);
    let fits = format!("(frame 4 3)\n(busy 2 (2 2) (4 4))\n(busy 3 (2 4))\n{presets}");
    assert!(refusals(&fits).is_empty());
}

#[test]
fn a_call_takes_the_one_cell_that_helps() {
    // Empty 3, 1, 1, 1 and one optional cell in slot 2; slot 1 also has a mandatory cell.
    let head = "(frame 4 4)\n(busy 2 (3 4))\n(busy 3 (2 4))\n(busy 4 (2 4))\n(preset 1 0 1 1)\n";
    assert_eq!(
        lines(head, "(slot"),
        ["(slot 1 m1 0 0 0)", "(slot 2 o1 0 - -)", "(slot 3 0 - - -)", "(slot 4 0 - - -)"]
    );
    let slots = ["(slot 1 m1 c8 c9 0)", "(slot 2 c8 c9 - -)", "(slot 3 c8 - - -)", "(slot 4 c9 - - -)"];
    let text = format!("{head}(call (8 3) (9 3))\n");
    assert_eq!(lines(&text, "(taken"), ["(taken 1)"]);
    assert_eq!(lines(&text, "(slot"), slots);
}

#[test]
fn ties_go_to_the_earlier_line() {
    let text = "(frame 3 2)\n(preset 1 0 2 0)\n(preset 2 0 2 0)\n(preset 3 0 2 0)\n";
    assert_eq!(lines(text, "(slot"), ["(slot 1 m1 m2)", "(slot 2 m1 m3)", "(slot 3 m2 m3)"]);
}

#[test]
fn mandatory_slots_at_the_frame_size() {
    assert!(refusals("(frame 64 1)\n(preset 1 0 64 0)\n").is_empty());
    assert_eq!(refusals("(frame 63 1)\n(preset 1 0 64 0)\n"), ["(refused 2 5)"]);
    assert_eq!(refusals("(frame 64 1)\n(preset 1 0 65 0)\n"), ["(refused 2 2)"]);
}

#[test]
fn the_worse_priority_is_evicted() {
    let text = "(frame 2 2)\n(busy 1 (1 1))\n(busy 2 (1 1))\n(preset 1 0 0 1)\n(preset 2 9 0 1)\n(call (5 1))\n";
    assert_eq!(lines(text, "(slot"), ["(slot 1 - -)", "(slot 2 o1 c5)"]);
}

#[test]
fn clocks_and_calls() {
    let events = "(clock 3)\n(clock 3)\n(clock 2)\n(call (5 1) (5 1))\n(clock 5)\n(call (6 1))\n(clock 6)\n";
    let expected =
        ["(now 3)", "(now 3)", "(refused 4 6)", "(refused 5 4)", "(now 5)", "(refused 7 7)", "(refused 8 2)"];
    assert_eq!(listing(&format!("(frame 4 1)\n{events}")).lines().take(7).collect::<Vec<_>>(), expected);
}

#[test]
fn heads_at_fault() {
    for (text, expected) in [
        ("", "(refused 1 3)"),
        ("\n", "(refused 1 1)"),
        ("(clock 1)\n", "(refused 1 3)"),
        ("(clock 1)", "(refused 1 1)"),
        ("(frame 1 1)", "(refused 1 1)"),
        ("(frame 1 1)\n(clock 1)", "(refused 2 1)"),
        ("(frame 1 1)\n(frame 0 0)\n", "(refused 2 3)"),
        ("(frame 4 4)\n(busy 0 (1 1))\n", "(refused 2 2)"),
        ("(frame 4 4)\n(busy 1 (1 1))\n(busy 0 (1 1))\n", "(refused 3 3)"),
        ("(frame 4 4)\n(busy 1 (1 1))\n(busy 1 (9 9))\n", "(refused 3 3)"),
        ("(frame 4 4)\n(busy 1 (1 1) (2 2))\n", "(refused 2 2)"),
        ("(frame 4 4)\n(busy 1 (4 5))\n", "(refused 2 2)"),
        ("(frame 4 4)\n(busy 1)\n", "(refused 2 1)"),
        ("(frame 18446744073709551617 1)\n", "(refused 1 2)"),
        ("(frame 01 1)\n", "(refused 1 1)"),
        ("(frame 1 1)\n(preset 1 0 0 0)\n(preset 1 0 65 0)\n", "(refused 3 2)"),
        ("(frame 1 1)\n(preset 1 0 0 0)\n(preset 1 0 0 0)\n", "(refused 3 4)"),
        ("(frame 1 1)\n(preset 1 0 2 0)\n\n(clock 1)\n", "(refused 3 1)"),
        ("(frame 1 1)\n(preset 1 0 2 0)\n(clock 9)\n", "(refused 2 5)"),
    ] {
        assert_eq!(listing(text), format!("{expected}\n"), "{text}");
    }
}

#[test]
fn events_at_fault() {
    for (event, cause) in [
        ("(clock 0)", 6),
        ("(clock 6)", 2),
        ("(call (1 1) (2 1) (3 1) (4 1) (5 1) (6 1) (7 1) (8 1) (9 1))", 2),
        ("(call)", 1),
        ("(call ())", 1),
        ("(call (5 1)(6 1))", 1),
        ("(call (256 1))", 2),
        ("(call (9 1) (9 65))", 2),
        ("(frame 1 1)", 3),
        ("(busy 0 (9 1))", 3),
        ("(busy 1)", 1),
        ("(preset 1 0 0 0)", 3),
        ("", 1),
    ] {
        let text = format!("(frame 4 1)\n(clock 1)\n{event}\n");
        assert_eq!(refusals(&text), [format!("(refused 3 {cause})")], "{event}");
    }
}

#[test]
fn the_text_limit() {
    let mut text = "(frame 1 1)\n(clock 1)\n".to_owned();
    text.extend(std::iter::repeat_n('\n', 32_768 - text.len()));
    assert_eq!(refusals(&text).len(), 32_768 - 22);
    text.push('\n');
    assert_eq!(listing(&text), "(refused 0 10)\n");
}

#[test]
fn the_65th_job() {
    let mut text = "(frame 64 8)\n".to_owned();
    for number in 1..=64 {
        text += &format!("(call ({number} 1))\n");
    }
    text += "(clock 65)\n(call (64 1))\n(call (65 1))\n";
    assert_eq!(refusals(&text), ["(refused 67 4)", "(refused 68 9)"]);
}
