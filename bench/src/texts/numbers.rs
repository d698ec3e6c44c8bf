//! Texts with a number that is too long for 64 bits, or that is no number.

use super::limits::any_station;
use super::rng::Rng;

/// Numbers in a text replaced by long ones, some of which would wrap to a small value in 64 bits or fewer.
pub fn huge_number(rng: &mut Rng) -> Vec<u8> {
    let station = any_station(rng);
    let mut bytes = station.bytes();
    for _ in 0..rng.within(1..=3) {
        let long = long_number(rng);
        replace_number(rng, &mut bytes, long.as_bytes());
    }
    bytes
}

pub fn long_number(rng: &mut Rng) -> String {
    let small = rng.within(0..=9) as u128;
    match rng.below(7) {
        0 => ((1 << 8) + small).to_string(),
        1 => ((1 << 16) + small).to_string(),
        2 => ((1 << 32) + small).to_string(),
        3 => ((1_u128 << 63) + small).to_string(),
        4 => ((1_u128 << 64) + small).to_string(),
        5 => format!("{}{}", rng.within(1..=9), "0".repeat(rng.within(1..=600))),
        _ => (0..rng.within(3..=60)).map(|_| char::from(b'1' + rng.below(9) as u8)).collect(),
    }
}

/// Numbers with zeros in front, signs, points, or nothing at all.
pub fn bad_number(rng: &mut Rng) -> Vec<u8> {
    let station = any_station(rng);
    let mut bytes = station.bytes();
    let bad = no_number(rng);
    replace_number(rng, &mut bytes, bad.as_bytes());
    bytes
}

pub fn no_number(rng: &mut Rng) -> String {
    let small = rng.within(0..=9);
    match rng.below(8) {
        0 => format!("0{small}"),
        1 => "00".into(),
        2 => format!("-{small}"),
        3 => format!("+{small}"),
        4 => format!("{small}.0"),
        5 => format!("0x{small}"),
        6 => String::new(),
        _ => format!("{small}e1"),
    }
}

/// Replaces one number of the text, any of them with the same chance.
pub fn replace_number(rng: &mut Rng, bytes: &mut Vec<u8>, by: &[u8]) {
    let starts: Vec<usize> = (0..bytes.len())
        .filter(|&at| bytes[at].is_ascii_digit() && (at == 0 || !bytes[at - 1].is_ascii_digit()))
        .collect();
    if starts.is_empty() {
        return;
    }
    let start = *rng.pick(&starts);
    let length = bytes[start..].iter().take_while(|byte| byte.is_ascii_digit()).count();
    bytes.splice(start..start + length, by.iter().copied());
}
