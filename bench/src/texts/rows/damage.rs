//! Good rows spoilt: bytes and rows missing, doubled, changed or moved, ends cut off, rows of noise; and good rows after
//! heads and events that are spoilt.

use crate::texts::limits::any_station;
use crate::texts::rng::Rng;
use crate::texts::station::SMALL;
use crate::texts::{damage, drawn, limits, numbers, places, supply, ties, KINDS};

use super::{with_rows, Sheet};

/// The bytes that rows are made of, and some that they are not.
const BYTES: &[u8] = b"\"\"\",,,\r\r\n\n0123456789 ;'\t-+.\0\x0b\x1a\x80\xef\xff";

/// One to three bytes missing, doubled, changed, put in, flipped or swapped, mostly among the rows.
pub fn byte_damaged(rng: &mut Rng) -> Vec<u8> {
    let sheet = Sheet::any(rng);
    let mut bytes = sheet.bytes();
    let head = bytes.len() - sheet.row_bytes().len();
    for _ in 0..*rng.pick(&[1, 1, 2, 3]) {
        let from = if rng.chance(85) { head } else { 0 };
        if from < bytes.len() {
            let at = rng.within(from..=bytes.len() - 1);
            spoil(rng, &mut bytes, at);
        }
    }
    bytes
}

fn spoil(rng: &mut Rng, bytes: &mut Vec<u8>, at: usize) {
    match rng.below(6) {
        0 => {
            bytes.remove(at);
        }
        1 => bytes.insert(at, bytes[at]),
        2 => bytes[at] = *rng.pick(BYTES),
        3 => bytes.insert(at, *rng.pick(BYTES)),
        4 => bytes[at] ^= 1 << rng.below(8),
        _ => {
            let other = (at + 1).min(bytes.len() - 1);
            bytes.swap(at, other);
        }
    }
}

/// One row, or each of them, with another end than CR LF.
pub fn row_end(rng: &mut Rng) -> Vec<u8> {
    const ENDS: &[&str] =
        &["\n", "\r", "", "\n\r", "\r\r\n", "\r\n\r\n", " \r\n", "\r \n", ",\r\n", "\\r\\n", "\0\r\n", "\x0b"];
    let sheet = Sheet::any(rng);
    let end = *rng.pick(ENDS);
    let only = if rng.chance(75) { rng.below(sheet.rows.len()) } else { usize::MAX };
    let rows = sheet.rows.iter().enumerate().map(|(place, row)| {
        let end = if only == usize::MAX || only == place { end } else { "\r\n" };
        format!("{row}{end}")
    });
    with_rows(sheet.station.bytes(), rows.collect::<String>().as_bytes())
}

/// Rows that lack something or have too much, among good ones.
pub fn lacking_form(rng: &mut Rng) -> Vec<u8> {
    const ROWS: &[&str] = &[
        "bridge,first,last",
        "\"bridge\",\"first slot\",\"last slot\"",
        "",
        " ",
        ",",
        ",,",
        ",,,",
        "\"\",\"\",\"\"",
        "1",
        "1,1",
        "9,9",
        "1,1,",
        ",1,1",
        "1,,1",
        "1,1,1,",
        "1,1,1,1",
        "\"1,1\",1",
        "\"1,1,1\"",
        "\"1\r\n\",1,1",
        "1,\"1\"\",1",
        "1,\"\"1\"\",1",
        "1,\"\"1,1",
        "1,\"1,1",
        "1,1\",1",
        "1,1\"\",1",
        "1,\"1\"1,1",
        "1,1\"1\",1",
        "'1','1','1'",
        "1, 1,1",
        "1 ,1,1",
        " 1,1,1",
        "1,1,1 ",
        "1,\" 1\",1",
        "1,\"1\" ,1",
        "1;1;1",
        "1\t1\t1",
        "1,1-1",
        "01,1,1",
        "1,01,1",
        "1,1,\"01\"",
        "00,1,1",
        "1,1,+1",
        "1,1.0,1",
        "one,1,1",
        "#1,1,1",
        "\u{feff}1,1,1",
        "(busy 1 (1 1))",
        "\"",
        "\"\"",
    ];
    let mut sheet = Sheet::any(rng);
    for _ in 0..*rng.pick(&[1, 1, 2]) {
        let row = (*rng.pick(ROWS)).to_owned();
        // A header is the first row.
        let at = if rng.chance(30) { 0 } else { rng.within(0..=sheet.rows.len()) };
        sheet.rows.insert(at, row);
    }
    sheet.bytes()
}

/// A whole row missing, doubled, swapped with another or joined to it, or blank rows put in.
pub fn row_damaged(rng: &mut Rng) -> Vec<u8> {
    let mut sheet = Sheet::any(rng);
    for _ in 0..rng.within(1..=3) {
        let rows = &mut sheet.rows;
        let at = rng.below(rows.len());
        let other = rng.below(rows.len());
        match rng.below(6) {
            0 if rows.len() > 1 => {
                rows.remove(at);
            }
            1 => rows.insert(other, rows[at].clone()),
            2 => rows.swap(at, other),
            3 => rows.insert(at, String::new()),
            4 => rows[at] = format!("{}{}", rows[at], rows[other]),
            _ => {
                let quote = *rng.pick(&["", "\"\"", "'"]);
                rows[at] = rows[at].replace('"', quote);
            }
        }
    }
    sheet.bytes()
}

/// The last byte or the last two are missing, or the input ends anywhere.
pub fn cut_short(rng: &mut Rng) -> Vec<u8> {
    let mut bytes = Sheet::any(rng).bytes();
    let keep = match rng.below(3) {
        0 => bytes.len() - 1,
        1 => bytes.len() - 2,
        _ => rng.below(bytes.len()),
    };
    bytes.truncate(keep);
    bytes
}

/// Rows after a station text of any kind, damaged ones too; an empty line that it has itself comes first. Now and then one
/// with tie lines in any place, since some are the head's and others end it, or with supply lines.
pub fn any_head(rng: &mut Rng) -> Vec<u8> {
    let text = match rng.below(10) {
        0 => ties::in_its_place(rng),
        1 => ties::anywhere(rng),
        2 => supply::in_its_place(rng),
        _ => drawn(rng, KINDS).bytes,
    };
    before_rows(rng, text)
}

/// Rows after a station text that has something wrong, often in its head.
pub fn head_at_fault(rng: &mut Rng) -> Vec<u8> {
    const MAKERS: &[fn(&mut Rng) -> Vec<u8>] = &[
        limits::head_limit,
        limits::head_limit,
        limits::many_presets,
        places::used_number,
        places::misplaced,
        places::misplaced,
        numbers::huge_number,
        numbers::bad_number,
        damage::lacking_form,
        ties::out_of_place,
        ties::damaged,
        supply::out_of_place,
        supply::damaged,
    ];
    let text = rng.pick(MAKERS)(rng);
    before_rows(rng, text)
}

fn before_rows(rng: &mut Rng, text: Vec<u8>) -> Vec<u8> {
    match rng.below(6) {
        0 => text,
        1 => with_rows(text, b"nonsense"),
        // Every frame has this cell.
        2 | 3 => with_rows(text, b"1,1,1\r\n"),
        _ => with_rows(text, &Sheet::any(rng).row_bytes()),
    }
}

/// After the head an event, and lines that nobody looks at; with rows or without an empty line.
pub fn events_damaged(rng: &mut Rng) -> Vec<u8> {
    let mut sheet = Sheet::any(rng);
    const EVENTS: &[&str] =
        &["(clock 0)", "(clock 1)", "(clock 99)", "(call (9 1))", "(call (0 99))", "(tie hold)", "(tie place)"];
    sheet.station.events.insert(0, (*rng.pick(EVENTS)).into());
    for _ in 0..rng.within(1..=4) {
        let line =
            *rng.pick(&["(busy 1 (1 1))", "(frame 4 2)", "1,1,1\r", "\r", " ", "x", "(clock 1", "(preset 0 0 0 0)"]);
        let at = rng.within(1..=sheet.station.events.len());
        sheet.station.events.insert(at, line.into());
    }
    if rng.chance(30) {
        let mut text = sheet.station.bytes();
        if rng.chance(50) {
            text.pop();
        }
        return text;
    }
    sheet.bytes()
}

/// Nothing, an empty line, a frame alone, a row alone.
pub fn next_to_nothing(rng: &mut Rng) -> Vec<u8> {
    const INPUTS: &[&str] = &[
        "",
        "\n",
        "\n\n",
        "\r\n",
        "\r\n\r\n",
        "1,1,1\r\n",
        "\n1,1,1\r\n",
        "(frame 1 1)",
        "(frame 1 1)\n",
        "(frame 1 1)\n\n",
        "(frame 1 1)\n\n\n",
        "(frame 1 1)\n\r\n",
        "(frame 1 1)\n\r\n1,1,1\r\n",
        "(frame 1 1)\r\n\r\n1,1,1\r\n",
        "(frame 1 1)\n \n1,1,1\r\n",
        "(frame 1 1)1,1,1\r\n",
        "(frame 1 1)\n1,1,1\r\n",
        "\n(frame 1 1)\n\n1,1,1\r\n",
        "(frame 1 1)\n\n1,1,1\r\n",
        "(frame 1 1)\n\n1,1,1",
        "(frame 1 1)\n\n1,1,1\n",
        "(frame 1 1)\n\n\n1,1,1\r\n",
        "(frame 1 1)\n\n1,1,1\r\n\n",
        "(frame 1 1)\n\n1,1,2\r\n",
        "(frame 1 1)\n\n2,1,1\r\n",
        "(frame 1 1)\n\n(busy 1 (1 1))\n",
        "(frame 64 8)\n\n8,1,64\r\n",
        "(frame 64 8)\n(busy 8 (1 64))\n",
        "(frame 65 8)\n\n8,1,64\r\n",
        "(clock 1)\n\n1,1,1\r\n",
        "(frame 1 1)\n(clock 1)\n\n1,1,1\r\n",
        "(frame 1 1)\n(clock 1)",
        "(frame 1 1)\n(tie hold)\n",
        "(frame 1 1)\n(tie hold)\n\n1,1,1\r\n",
        "(frame 1 1)\n(tie hold)\n(tie place)\n\n1,1,1\r\n",
        "(frame 1 1)\n(tie place)\n\n1,1,1\r\n",
        "(frame 1 1)\n(busy 1 (1 1))\n(tie hold)\n\n",
        "(tie hold)\n\n1,1,1\r\n",
        "(frame 1 1)\n(supply 1)\n",
        "(frame 1 1)\n(supply 8)\n\n1,1,1\r\n",
        "(frame 1 1)\n(supply 1)\n(tie hold)\n\n1,1,1\r\n",
        "(frame 1 1)\n(tie hold)\n(supply 1)\n\n1,1,1\r\n",
        "(frame 1 1)\n(supply 9)\n\n1,1,1\r\n",
        "(supply 1)\n\n1,1,1\r\n",
    ];
    rng.pick(INPUTS).as_bytes().to_vec()
}

/// Random bytes, mostly those of rows, after a head or among its lines.
pub fn noise(rng: &mut Rng) -> Vec<u8> {
    if rng.chance(15) {
        return damage::noise(rng);
    }
    let mut sheet = Sheet::new(rng, SMALL);
    if rng.chance(20) {
        sheet.station = any_station(rng);
    }
    let some = rng.chance(85);
    let bytes = (0..rng.within(0..=120)).map(|_| if some { *rng.pick(BYTES) } else { rng.word() as u8 });
    let bytes: Vec<u8> = bytes.collect();
    if rng.chance(30) {
        // Good rows first.
        let count = rng.within(1..=3);
        sheet.add(rng, count);
    }
    [sheet.bytes(), bytes].concat()
}
