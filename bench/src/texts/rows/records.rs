//! Lent records by seed: those of a head, with any numbers where nobody looks; some that no text yields, some too short.

use crate::head::{Head, BRIDGES, PRESETS};
use crate::lent::{Lent, FRAME, OUT, PRESET_BYTES, SUPPLY};
use crate::texts::rng::Rng;

/// The records of a head: three in four as they should be, the others too short or such that no text yields them.
pub fn lent(rng: &mut Rng, head: &Head) -> Lent {
    let mut lent = Lent::new(head);
    // The clock, both orders of ties, the reserved number and the records past the last preset.
    [3, 13, 14, 15].into_iter().for_each(|place| lent.frame[place] = number(rng));
    lent.presets[4 * head.presets.len()..].fill_with(|| rng.word() as u8);
    if rng.chance(20) {
        lent.frame.resize(FRAME + rng.below(4), number(rng));
        lent.presets.resize(PRESET_BYTES + rng.below(9), rng.word() as u8);
    }
    match rng.below(16) {
        0 => lent.frame.truncate(*rng.pick(&[0, 1, FRAME - 1])),
        1 => lent.presets.truncate(*rng.pick(&[0, 1, PRESET_BYTES - 4, PRESET_BYTES - 1])),
        2 => spoil_frame(rng, &mut lent, head),
        3 => spoil_presets(rng, &mut lent, head),
        _ => {}
    }
    lent
}

/// An output, mostly long enough, that holds something already.
pub fn out(rng: &mut Rng) -> Vec<u8> {
    let length = if rng.chance(5) { *rng.pick(&[0, OUT - 1]) } else { OUT + rng.below(3) };
    vec![rng.word() as u8; length]
}

fn number(rng: &mut Rng) -> u64 {
    if rng.chance(50) {
        rng.below(70) as u64
    } else {
        rng.word()
    }
}

/// A number of the frame at or past its limit, or busy slots that the frame does not have.
fn spoil_frame(rng: &mut Rng, lent: &mut Lent, head: &Head) {
    let (slots, bridges) = (head.slots, head.bridges);
    match rng.below(6) {
        0 => lent.frame[0] = *rng.pick(&[0, 1, 64, 65, 256, 1 << 32, u64::MAX, (1 << 32) + slots as u64]),
        1 => lent.frame[1] = *rng.pick(&[0, 1, 8, 9, 256, 1 << 32, u64::MAX, (1 << 32) + bridges as u64]),
        2 => lent.frame[2] = *rng.pick(&[0, 31, 32, 33, 256, 1 << 32, u64::MAX, head.presets.len() as u64 + 1]),
        // Those up to 8 are a supply, more motors than the frame has bridges too.
        3 => lent.frame[SUPPLY] = *rng.pick(&[0, 1, 8, 9, 255, 256, (1 << 32) + 3, 1 << 63, u64::MAX]),
        // A slot just past the frame, or the very last; a bridge just past it.
        4 => lent.frame[4 + rng.below(bridges)] |= 1 << (*rng.pick(&[slots, 63])).min(63),
        _ => lent.frame[4 + bridges.min(BRIDGES - 1)] |= 1 << rng.below(slots),
    }
}

/// A value of one preset at or past its limit, or the number of another one.
fn spoil_presets(rng: &mut Rng, lent: &mut Lent, head: &Head) {
    if head.presets.is_empty() {
        return;
    }
    let record = 4 * rng.below(head.presets.len().min(PRESETS));
    match rng.below(5) {
        0 => lent.presets[record] = 0,
        1 => lent.presets[record] = head.presets[rng.below(head.presets.len())].number,
        2 => lent.presets[record + 1] = *rng.pick(&[9, 10, 255]),
        3 => lent.presets[record + 2] = *rng.pick(&[64, 65, 255]),
        _ => lent.presets[record + 3] = *rng.pick(&[64, 65, 255]),
    }
}
