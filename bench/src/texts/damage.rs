//! Good texts spoilt: bytes and lines missing, doubled, changed or moved, ends cut off, and texts of noise.

use super::limits::any_station;
use super::rng::Rng;
use super::station::TEXT_LIMIT;

/// The bytes that forms are made of, and some that they are not.
const BYTES: &[u8] = b"()() \n0123456789framebusypresetclockcalltieholdplacesupply-+.\t\r\0F\x0b\x1f\x80\xff";

pub fn byte_missing(rng: &mut Rng) -> Vec<u8> {
    spoilt(rng, |_, bytes, at| {
        bytes.remove(at);
    })
}

pub fn byte_doubled(rng: &mut Rng) -> Vec<u8> {
    spoilt(rng, |_, bytes, at| bytes.insert(at, bytes[at]))
}

pub fn byte_changed(rng: &mut Rng) -> Vec<u8> {
    spoilt(rng, |rng, bytes, at| bytes[at] = *rng.pick(BYTES))
}

pub fn byte_inserted(rng: &mut Rng) -> Vec<u8> {
    spoilt(rng, |rng, bytes, at| bytes.insert(at, *rng.pick(BYTES)))
}

pub fn byte_flipped(rng: &mut Rng) -> Vec<u8> {
    spoilt(rng, |rng, bytes, at| bytes[at] ^= 1 << rng.below(8))
}

/// One to three places spoilt. Mostly in the last part of the text, so that heads often stay whole.
fn spoilt(rng: &mut Rng, spoil: impl Fn(&mut Rng, &mut Vec<u8>, usize)) -> Vec<u8> {
    let station = any_station(rng);
    let mut bytes = station.bytes();
    let head: usize = station.head.iter().map(|line| line.len() + 1).sum();
    for _ in 0..rng.within(1..=3) {
        let from = if rng.chance(65) { head } else { 0 };
        if from < bytes.len() {
            let at = rng.within(from..=bytes.len() - 1);
            spoil(rng, &mut bytes, at);
        }
    }
    bytes
}

/// A whole line missing, doubled, swapped with another, or empty lines put in.
pub fn line_damaged(rng: &mut Rng) -> Vec<u8> {
    let station = any_station(rng);
    let mut lines: Vec<String> = station.head.iter().chain(&station.events).cloned().collect();
    for _ in 0..rng.within(1..=2) {
        let at = rng.below(lines.len());
        let other = rng.below(lines.len());
        match rng.below(5) {
            0 if lines.len() > 1 => {
                lines.remove(at);
            }
            1 => lines.insert(other, lines[at].clone()),
            2 => lines.swap(at, other),
            3 => lines.insert(at, String::new()),
            _ => lines[at] = respaced(rng, &lines[at]),
        }
    }
    lines.iter().flat_map(|line| [line.as_bytes(), b"\n"].concat()).collect()
}

/// A line with its blanks or brackets changed so that it lacks its form, or nearly so.
fn respaced(rng: &mut Rng, line: &str) -> String {
    match rng.below(9) {
        0 => line.replacen(' ', "  ", 1),
        1 => format!("{line} "),
        2 => format!(" {line}"),
        3 => format!("{line}\r"),
        4 => line.replace(") (", ")("),
        5 => line.replace(')', " )"),
        6 => format!("{line}{line}"),
        7 => line.split(' ').next().unwrap_or("").to_owned() + ")",
        _ => line.to_uppercase(),
    }
}

/// Forms that lack something, each on a line of its own in a good text.
pub fn lacking_form(rng: &mut Rng) -> Vec<u8> {
    const LINES: &[&str] = &[
        "(call)",
        "(call )",
        "(call ())",
        "(call (5))",
        "(call (5 1)(6 1))",
        "(call (5 1) )",
        "(call 5 1)",
        "(call (5 1 1))",
        "(busy 1)",
        "(busy 1 )",
        "(busy (1 1))",
        "(busy)",
        "(busy 1 1 1)",
        "(busy 1 (1 1)",
        "(clock)",
        "(clock )",
        "(clock 1 1)",
        "(clock(1))",
        "(clock (1))",
        "clock 1",
        "(preset 1 0 0)",
        "(preset 1 0 0 0 0)",
        "(frame 1)",
        "(frame 1 1 1)",
        "()",
        "(",
        ")",
        "(clock 1))",
        "((clock 1))",
        "(clock 1) (clock 1)",
        "(now 1)",
        "(clocks 1)",
        "(cal (5 1))",
        "(clock 1",
        "(call (5 1)",
        "(tie)",
        "(tie hold )",
        "(tie Hold)",
        "(tie hold place)",
        "(tie 1)",
        "(tie hold",
        "(supply)",
        "(supply 03)",
        "(supply 2 2)",
        "(supply (2))",
        "(supply 2",
    ];
    let mut station = any_station(rng);
    for _ in 0..rng.within(1..=3) {
        let line = (*rng.pick(LINES)).to_owned();
        let lines = if rng.chance(30) { &mut station.head } else { &mut station.events };
        let at = rng.within(0..=lines.len());
        lines.insert(at, line);
    }
    station.bytes()
}

/// The last byte 10 is missing, or the text ends anywhere.
pub fn cut_short(rng: &mut Rng) -> Vec<u8> {
    let station = any_station(rng);
    let mut bytes = station.bytes();
    let keep = if rng.chance(50) { bytes.len() - 1 } else { rng.below(bytes.len()) };
    bytes.truncate(keep);
    bytes
}

/// No text, a head's line alone, a few bytes.
pub fn next_to_nothing(rng: &mut Rng) -> Vec<u8> {
    const TEXTS: &[&str] = &[
        "",
        "\n",
        "\n\n",
        "(",
        "(frame 1 1)",
        "(frame 1 1)\n",
        "(frame 1 1)\n\n",
        "\n(frame 1 1)\n",
        "(clock 1)\n",
        "(clock 1)",
        "(call (1 1))\n",
        "(busy 1 (1 1))\n",
        "(preset 1 0 1 1)\n",
        "(frame 1 1)\n(clock 1)",
        "(frame 1 1)\n(clock 2)\n(clock 1)",
        "(clock 0)\n",
        "(frame 1 1)\n(clock 0)",
        "(frame 1 1)\n(clock 0)\n(clock 0)\n",
        "(frame 1 1)\n(clock 1)\n(clock 0)\n",
        "(frame 1 1)\n(clock 2)\n(clock 3)\n",
        "(frame 64 8)\n",
        "(frame 65 8)\n",
        "(frame 1 1)\n(preset 1 0 2 0)\n",
        "(frame 1 1)\n(preset 1 0 1 1)\n(call (2 1))\n",
        " ",
        "\0",
        "\r\n",
        "(frame 1 1)\r\n",
        "(frame 1 1)\n(busy 1 (1 1))\n(call (1 1))\n",
        "(frame 1 1)\n(clock 0)\n(call (1 1))\n",
        "(frame 1 1)\n(clock 1)\n(call (1 1))\n",
        "(frame 1 1)\n(clock 2)\n(call (1 1))\n",
        "(tie hold)\n",
        "(tie place)\n(frame 1 1)\n",
        "(frame 1 1)\n(tie hold)",
        "(frame 1 1)\n(tie hold)\n",
        "(frame 1 1)\n(tie place)\n",
        "(frame 1 1)\n(tie hold)\n(tie hold)\n",
        "(frame 1 1)\n(tie hold)\n(tie place)\n",
        "(supply 1)\n",
        "(supply 1)\n(frame 1 1)\n",
        "(frame 1 1)\n(supply 1)",
        "(frame 1 1)\n(supply 1)\n",
        "(frame 1 2)\n(supply 1)\n(tie hold)\n",
        "(frame 1 2)\n(supply 1)\n(tie place)\n",
        "(frame 1 2)\n(tie hold)\n(supply 1)\n",
        "(frame 1 2)\n(supply 1)\n(supply 1)\n",
        "(frame 1 2)\n(supply 1)\n(tie hold)\n(tie place)\n(supply 0)\n",
    ];
    rng.pick(TEXTS).as_bytes().to_vec()
}

/// After an event nearly nothing but empty lines, each of them refused.
pub fn empty_lines(rng: &mut Rng) -> Vec<u8> {
    let mut bytes = b"(frame 2 1)\n(clock 1)\n".to_vec();
    let length = if rng.chance(30) { TEXT_LIMIT } else { rng.within(30..=3_000) };
    bytes.resize(length, b'\n');
    bytes
}

/// Random bytes, mostly those of forms, after a head or not.
pub fn noise(rng: &mut Rng) -> Vec<u8> {
    let mut bytes = if rng.chance(50) { b"(frame 5 2)\n(clock 1)\n".to_vec() } else { Vec::new() };
    let some = rng.chance(80);
    for _ in 0..rng.within(0..=120) {
        let byte = if some { *rng.pick(BYTES) } else { rng.word() as u8 };
        bytes.push(byte);
    }
    bytes
}
