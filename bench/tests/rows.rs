//! Rows of a spreadsheet: the wrong turns of request 2026-01, and what its readings settle.

use std::collections::BTreeSet;

use bench::head::{Head, BRIDGES};
use bench::lent::{Lent, FRAME, OUT, PRESET_BYTES, SUPPLY};
use bench::rows;
use bench::texts::rows::input;

const HEAD: &str = "(frame 4 2)\n(busy 1 (4 4))\n";

fn converted(input: &str) -> String {
    let mut out = Vec::new();
    rows::convert(input.as_bytes(), &mut out);
    String::from_utf8(out).expect("what is printed is plain")
}

/// What is printed for these rows with the head above.
fn with_rows(rows: &str) -> String {
    converted(&format!("{HEAD}\n{rows}"))
}

fn head(text: &str) -> Head {
    rows::read_head(text.as_bytes()).expect("a good head")
}

#[test]
fn rows_stand_in_place_of_the_busy_lines() {
    for (rows, busy) in [
        ("", ""),
        ("1,1,2\r\n", "(busy 1 (1 2))\n"),
        ("1,1,2\r\n1,3,4\r\n", "(busy 1 (1 4))\n"),
        ("1,1,1\r\n1,3,4\r\n", "(busy 1 (1 1) (3 4))\n"),
        ("1,1,3\r\n1,2,4\r\n", "(busy 1 (1 4))\n"),
        ("1,1,4\r\n1,2,2\r\n", "(busy 1 (1 4))\n"),
        ("1,2,2\r\n1,2,2\r\n", "(busy 1 (2 2))\n"),
        ("2,3,4\r\n1,1,1\r\n\"2\",\"1\",2\r\n", "(busy 1 (1 1))\n(busy 2 (1 4))\n"),
    ] {
        assert_eq!(with_rows(rows), format!("(frame 4 2)\n{busy}"), "{rows}");
    }
}

#[test]
fn rows_are_written_bare_by_bridge_then_by_slot() {
    assert_eq!(converted("(frame 4 2)\n(busy 1 (1 1))\n(busy 2 (1 4))\n"), "1,1,1\r\n2,1,4\r\n");
    assert_eq!(converted("(frame 9 8)\n(busy 3 (1 1) (3 5) (9 9))\n(preset 1 0 0 0)\n"), "3,1,1\r\n3,3,5\r\n3,9,9\r\n");
    assert_eq!(converted("(frame 4 2)\n"), "");
    assert_eq!(converted(HEAD), "1,4,4\r\n");
}

#[test]
fn rows_at_fault() {
    for (rows, row, cause) in [
        ("9,9\r\n", 1, 12),
        ("3,1,1\r\n", 1, 2),
        ("0,1,1\r\n", 1, 2),
        ("1,3,2\r\n", 1, 2),
        ("1,0,1\r\n", 1, 2),
        ("1,1,5\r\n", 1, 2),
        ("1,1,18446744073709551617\r\n", 1, 2),
        ("18446744073709551617,1,1\r\n", 1, 2),
        ("1,10000000000000000000,10000000000000000001\r\n", 1, 2),
        ("\"1\",\"1\",\"4294967297\"\r\n", 1, 2),
        ("1,01,1\r\n", 1, 12),
        ("1,1,00\r\n", 1, 12),
        ("\"01\",1,1\r\n", 1, 12),
        ("\"1,1\",1\r\n", 1, 12),
        ("1,1,1,1\r\n", 1, 12),
        ("1,1,1,\r\n", 1, 12),
        ("1, 1,1\r\n", 1, 12),
        ("1,1,1 \r\n", 1, 12),
        ("1,\"1\"\",1\r\n", 1, 12),
        ("1,\"\"1\"\",1\r\n", 1, 12),
        ("1,\"1,1\r\n", 1, 12),
        ("1,1\",1\r\n", 1, 12),
        ("1,\"\",1\r\n", 1, 12),
        ("1,,1\r\n", 1, 12),
        ("1;1;1\r\n", 1, 12),
        ("+1,1,1\r\n", 1, 12),
        ("bridge,first,last\r\n1,1,1\r\n", 1, 12),
        ("\u{feff}1,1,1\r\n", 1, 12),
        ("\r\n", 1, 12),
        ("\n", 1, 12),
        ("\r", 1, 12),
        ("1,1,1\r\n\r\n", 2, 12),
        ("1,1,1", 1, 12),
        ("1,1,1\r", 1, 12),
        ("1,1,1\n", 1, 12),
        ("1,1,1\r\n1,2,2", 2, 12),
        ("1,1,1\r1,2,2\r\n", 1, 12),
        ("1,1,1\r\r\n", 1, 12),
        ("1,1,1\n\r\n", 1, 12),
        ("1,\"1\r\n\",1\r\n", 1, 12),
        // In a row 12 comes before 2; the first row at fault decides.
        ("3,1,01\r\n", 1, 12),
        ("9,9,9\n", 1, 12),
        ("3,1,1\r\n1,1\r\n", 1, 2),
        ("1,1\r\n3,1,1\r\n", 1, 12),
        ("1,1,1\r\n1,1,2\r\n1,3,2\r\n1\r\n", 3, 2),
    ] {
        assert_eq!(with_rows(rows), format!("(refused {row} {cause})\n"), "{rows:?}");
        let mut refused = head(HEAD);
        let answer = rows::read(rows.as_bytes(), &mut refused).map_err(|(row, refusal)| (row, refusal.number()));
        assert_eq!(answer, Err((row, cause)));
        assert_eq!(refused, head(HEAD));
    }
}

#[test]
fn every_bit_of_the_widest_frame() {
    let mut widest = head("(frame 64 8)\n");
    assert_eq!(rows::read(b"1,1,64\r\n8,64,64\r\n2,1,1\r\n", &mut widest), Ok(3));
    assert_eq!(widest.busy, [u64::MAX, 1, 0, 0, 0, 0, 0, 1 << 63]);
    assert_eq!(converted("(frame 64 8)\n\n1,1,63\r\n1,64,64\r\n"), "(frame 64 8)\n(busy 1 (1 64))\n");
    assert_eq!(converted("(frame 63 8)\n\n1,1,64\r\n"), "(refused 1 2)\n");
    assert_eq!(converted("(frame 64 8)\n\n1,1,65\r\n"), "(refused 1 2)\n");
    assert_eq!(converted("(frame 64 8)\n\n9,1,1\r\n"), "(refused 1 2)\n");
}

#[test]
fn the_head_comes_first() {
    for (input, printed) in [
        ("", "(refused 1 3)\n"),
        ("\n", "(refused 1 3)\n"),
        ("\n1,1,1\r\n", "(refused 1 3)\n"),
        ("(frame 4 2)", "(refused 1 1)\n"),
        ("(frame 4 2)\n(busy 3 (1 1))\n\n9,9\r\n", "(refused 2 2)\n"),
        ("(frame 4 2)\n(busy 1 (1 1))\n(busy 1 (3 3))\n\n1,1,1\r\n", "(refused 3 3)\n"),
        ("(frame 4 2)\r\n\r\n1,1,1\r\n", "(refused 1 1)\n"),
        // Events and what follows them are not looked at; a faulty line before them is the head's.
        ("(frame 4 2)\n(clock 1)\n(busy 9 (9 9))\nnonsense\n\n1,1,1\r\n", "(frame 4 2)\n(busy 1 (1 1))\n"),
        ("(frame 4 2)\n(busy 2 (1 1))\n(call (9 9))\nnonsense", "2,1,1\r\n"),
        ("(frame 4 2)\nnonsense\n(clock 1)\n\n1,1,1\r\n", "(refused 2 1)\n"),
        ("(clock 1)\n\n1,1,1\r\n", "(refused 1 3)\n"),
        // What does not fit is no fault of a head.
        ("(frame 2 1)\n(preset 7 0 2 0)\n\n1,1,1\r\n", "(frame 2 1)\n(busy 1 (1 1))\n(preset 7 0 2 0)\n"),
        // The first empty line parts head and rows; a second one is a row.
        ("(frame 4 2)\n\n\n", "(refused 1 12)\n"),
        ("(frame 4 2)\n\n1,1,1\r\n\n", "(refused 2 12)\n"),
    ] {
        assert_eq!(converted(input), printed, "{input:?}");
    }
}

#[test]
fn both_texts_have_their_limit() {
    let row = "1,1,1\r\n";
    // 32,768 bytes are 4,676 rows of 7 bytes and four of 9.
    let rows = row.repeat(4_676) + &"\"1\",1,1\r\n".repeat(4);
    assert_eq!(rows.len(), 32_768);
    assert_eq!(with_rows(&rows), "(frame 4 2)\n(busy 1 (1 1))\n");
    assert_eq!(with_rows(&format!("{rows}{row}")), "(refused 0 10)\n");
    let full = "x".repeat(32_768);
    assert_eq!(with_rows(&full), "(refused 1 12)\n");
    assert_eq!(with_rows(&format!("{full}x")), "(refused 0 10)\n");
    // The head's text with its events has a limit of its own.
    let mut text = format!("{HEAD}(clock 1)\n");
    text += &"y".repeat(32_767 - text.len());
    assert_eq!(converted(&format!("{text}\n\n{row}")), "(frame 4 2)\n(busy 1 (1 1))\n");
    assert_eq!(converted(&format!("{text}y\n\n{row}")), "(refused 0 10)\n");
    assert_eq!(converted(&format!("{text}y\n")), "(refused 0 10)\n");
    // A head at fault comes before rows that are too long.
    assert_eq!(converted(&format!("(frame 0 0)\n\n{full}x")), "(refused 1 2)\n");
}

#[test]
fn written_rows_are_read_again() {
    for text in [
        "(frame 1 1)\n",
        "(frame 1 1)\n(busy 1 (1 1))\n",
        "(frame 64 8)\n(busy 1 (1 64))\n(busy 8 (1 1) (3 3) (64 64))\n(preset 255 9 64 64)\n",
        "(frame 9 3)\n(busy 1 (2 2) (4 9))\n(busy 3 (1 7))\n(preset 1 0 2 1)\n(preset 2 1 1 2)\n",
    ] {
        let rows = converted(text);
        assert_eq!(converted(&format!("{text}\n{rows}")), text);
        let mut again = head(text);
        again.set_busy([0; BRIDGES]);
        assert!(rows::read(rows.as_bytes(), &mut again).is_ok());
        assert_eq!(again, head(text));
    }
}

/// The value of a field, which may be quoted, if it is a decimal number; one of more than nine digits is a billion.
fn field(bytes: &[u8]) -> Option<usize> {
    let inside = bytes.strip_prefix(b"\"").and_then(|rest| rest.strip_suffix(b"\""));
    let digits = std::str::from_utf8(inside.unwrap_or(bytes)).ok()?;
    let decimal = digits.bytes().all(|byte| byte.is_ascii_digit()) && (digits == "0" || !digits.starts_with('0'));
    let value = if digits.len() > 9 { 1_000_000_000 } else { digits.parse().unwrap_or(usize::MAX) };
    (decimal && !digits.is_empty()).then_some(value)
}

/// The cells that rows take, cut at every CR LF and at every comma, or the first row at fault and its cause.
fn cells(mut text: &[u8], head: &Head) -> Result<BTreeSet<(usize, usize)>, (u32, u8)> {
    let mut cells = BTreeSet::new();
    let mut row = 0;
    while !text.is_empty() {
        row += 1;
        let end = text.windows(2).position(|two| two == b"\r\n").ok_or((row, 12))?;
        let fields: Option<Vec<usize>> = text[..end].split(|&byte| byte == b',').map(field).collect();
        let fields = fields.filter(|fields| fields.len() == 3).ok_or((row, 12))?;
        let (bridge, first, last) = (fields[0], fields[1], fields[2]);
        if bridge < 1 || head.bridges < bridge || first < 1 || head.slots < last || last < first {
            return Err((row, 2));
        }
        cells.extend((first..=last).map(|slot| (bridge, slot)));
        text = &text[end + 2..];
    }
    Ok(cells)
}

/// Held against the words of the request, and written, and read again.
#[test]
fn seeded_rows_follow_the_definition() {
    let mut accepted = 0;
    for seed in 0..3_000 {
        let bytes = input(seed).bytes;
        let (text, Some(rows)) = rows::split(&bytes) else {
            continue;
        };
        let Ok(before) = rows::read_head(text) else {
            continue;
        };
        let mut after = before.clone();
        let answer = rows::read(rows, &mut after).map_err(|(row, refusal)| (row, refusal.number()));
        if rows.len() > 32_768 {
            assert_eq!((answer, after), (Err((0, 10)), before));
            continue;
        }
        let expected = cells(rows, &before);
        assert_eq!(answer.err(), expected.as_ref().err().copied(), "seed {seed}");
        let Ok(expected) = expected else {
            assert_eq!(after, before);
            continue;
        };
        accepted += 1;
        let busy = |&(bridge, slot): &(usize, usize)| after.busy[bridge - 1] >> (slot - 1) & 1 == 1;
        let all = (1..=8).flat_map(|bridge| (1..=64).map(move |slot| (bridge, slot)));
        assert!(all.filter(busy).eq(expected), "seed {seed}");
        let mut text = Vec::new();
        rows::convert(&bytes, &mut text);
        assert_eq!(rows::read_head(&text).as_ref(), Ok(&after));
        let mut written = Vec::new();
        rows::convert(&text, &mut written);
        let mut again = before.clone();
        assert!(rows::read(&written, &mut again).is_ok());
        assert_eq!(again, after);
    }
    assert!(accepted > 1_000);
}

#[test]
fn the_most_rows_a_head_has() {
    let mut most = head("(frame 64 8)\n");
    most.set_busy([0xaaaa_aaaa_aaaa_aaaa; BRIDGES]);
    let mut out = [7; OUT];
    assert_eq!(Lent::new(&most).write_rows(&mut out), Ok(2_240));
    assert_eq!(out.split(|&byte| byte == b'\n').count(), 8 * 32 + 1);
    assert!(out[2_240..].iter().all(|&byte| byte == 7));
}

/// The answer of reading rows into lent records, and whether they changed.
fn lent_rows(lent: &Lent, text: &[u8]) -> (Result<u32, (u32, u8)>, bool) {
    let mut after = lent.clone();
    let answer = after.read_rows(text).map_err(|(row, refusal)| (row, refusal.number()));
    (answer, after != *lent)
}

#[test]
fn lent_records_are_tried_before_any_row() {
    let good = Lent::new(&head("(frame 4 2)\n(busy 1 (4 4))\n(preset 3 0 1 1)\n"));
    let long = vec![b'x'; 40_000];
    assert_eq!(lent_rows(&good, b""), (Ok(0), true));
    assert_eq!(lent_rows(&good, b"1,4,4\r\n1,4,4\r\n"), (Ok(2), false));
    let mut impossible = good.clone();
    impossible.frame[0] = 65;
    assert_eq!(lent_rows(&impossible, &long), (Err((0, 10)), false));
    assert_eq!(lent_rows(&impossible, b"nonsense"), (Err((0, 2)), false));
    assert_eq!(lent_rows(&impossible, b""), (Err((0, 2)), false));
    impossible.presets.truncate(31 * 4);
    assert_eq!(lent_rows(&impossible, &long), (Err((0, 10)), false));
    assert_eq!(lent_rows(&impossible, b"nonsense"), (Err((0, 8)), false));
    assert_eq!(lent_rows(&good, &long), (Err((0, 10)), false));
    assert_eq!(lent_rows(&good, b"nonsense"), (Err((1, 12)), false));
}

#[test]
fn records_that_no_text_yields() {
    let good = Lent::new(&head("(frame 4 2)\n(busy 1 (4 4))\n(preset 3 0 1 1)\n(preset 4 0 1 1)\n"));
    let numbers = [(0, 0), (0, 65), (0, 1 << 32), (1, 0), (1, 9), (1, 1), (2, 33), (2, 3), (2, u64::MAX)];
    let supplies = [9, 255, 256, (1 << 32) + 1, u64::MAX].map(|motors| (SUPPLY, motors));
    for (place, number) in numbers.into_iter().chain([(4, 16), (4, 1 << 63), (6, 1), (11, 1)]).chain(supplies) {
        let mut lent = good.clone();
        lent.frame[5] = 1;
        lent.frame[place] = number;
        assert_eq!(lent_rows(&lent, b"").0, Err((0, 2)), "{place} {number}");
        assert_eq!(lent.write_rows(&mut [0; OUT]).map_err(|refusal| refusal.number()), Err(2));
    }
    for (place, byte) in [(0, 0), (0, 4), (1, 10), (2, 65), (3, 65), (4, 3), (7, 255)] {
        let mut lent = good.clone();
        lent.presets[place] = byte;
        assert_eq!(lent_rows(&lent, b"").0, Err((0, 2)), "{place} {byte}");
    }
    // Clock, orders of ties (any number is one), the reserved number, records past the last one and whatever is lent beyond do
    // not count; a supply of more motors than bridges is one.
    let mut lent = good.clone();
    lent.frame[SUPPLY] = 8;
    [3, 13, 14, 15].into_iter().for_each(|place| lent.frame[place] = u64::MAX);
    lent.presets[8..].fill(255);
    lent.frame.push(77);
    lent.presets.push(77);
    let mut expected = lent.clone();
    expected.frame[4] = 0;
    expected.frame[5] = 6;
    assert_eq!(lent.read_rows(b"2,2,3\r\n"), Ok(1));
    assert_eq!(lent, expected);
}

#[test]
fn lent_records_and_output_that_are_too_short() {
    let good = Lent::new(&head(HEAD));
    let short = [
        Lent { frame: vec![4; FRAME - 1], presets: good.presets.clone() },
        Lent { frame: good.frame.clone(), presets: vec![0; PRESET_BYTES - 1] },
        Lent { frame: Vec::new(), presets: Vec::new() },
    ];
    for lent in &short {
        assert_eq!(lent_rows(lent, b"nonsense"), (Err((0, 8)), false));
        assert_eq!(lent.write_rows(&mut [0; OUT]).map_err(|refusal| refusal.number()), Err(8));
    }
    let mut out = [7; OUT];
    assert_eq!(good.write_rows(&mut out[..OUT - 1]).map_err(|refusal| refusal.number()), Err(8));
    assert!(out.iter().all(|&byte| byte == 7));
    assert_eq!(good.write_rows(&mut out), Ok(7));
    assert_eq!(&out[..9], b"1,4,4\r\n\x07\x07");
}
