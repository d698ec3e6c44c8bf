//! Sets of small numbers, one bit each.

/// The positions of the ones, ascending.
pub fn ones(mut mask: u64) -> impl Iterator<Item = usize> {
    std::iter::from_fn(move || {
        if mask == 0 {
            return None;
        }
        let position = mask.trailing_zeros() as usize;
        mask &= mask - 1;
        Some(position)
    })
}

/// The runs of ones, ascending: the positions of the first and the last one of each.
pub fn runs(mut mask: u64) -> impl Iterator<Item = (usize, usize)> {
    std::iter::from_fn(move || {
        if mask == 0 {
            return None;
        }
        let first = mask.trailing_zeros();
        let after = first + (mask >> first).trailing_ones();
        mask &= u64::MAX.checked_shl(after).unwrap_or(0);
        Some((first as usize, after as usize - 1))
    })
}

/// The lowest `count` ones of a mask, or all of them if there are no more.
pub fn lowest(mask: u32, count: u32) -> u32 {
    if mask.count_ones() <= count {
        return mask;
    }
    let mut rest = mask;
    for _ in 0..count {
        rest &= rest - 1;
    }
    mask ^ rest
}

/// Turns eight rows of 64 bits into 64 columns of eight: bit r of column c is bit c of row r.
pub fn columns(rows: &[u64; 8]) -> [u8; 64] {
    let mut columns = [0; 64];
    for (block, eight) in columns.chunks_exact_mut(8).enumerate() {
        let bytes = rows.map(|row| (row >> (8 * block)) as u8);
        eight.copy_from_slice(&transposed(u64::from_le_bytes(bytes)).to_le_bytes());
    }
    columns
}

/// Transposes an 8 x 8 matrix of bits, row r being byte r: swaps off-diagonal blocks of size 1, then 2, then 4.
fn transposed(matrix: u64) -> u64 {
    let swap = |x: u64, shift: u32, upper: u64| {
        let moved = (x ^ (x >> shift)) & upper;
        x ^ moved ^ (moved << shift)
    };
    let x = swap(matrix, 7, 0x00aa_00aa_00aa_00aa);
    let x = swap(x, 14, 0x0000_cccc_0000_cccc);
    swap(x, 28, 0x0000_0000_f0f0_f0f0)
}

/// A set of preset and job numbers, 0 to 255.
#[derive(Clone, Copy, Debug, Default, PartialEq, Eq)]
pub struct Numbers([u64; 4]);

impl Numbers {
    pub fn contains(&self, number: u8) -> bool {
        self.0[usize::from(number >> 6)] >> (number & 63) & 1 == 1
    }

    /// Adds a number; false if it was there already.
    pub fn insert(&mut self, number: u8) -> bool {
        let word = &mut self.0[usize::from(number >> 6)];
        let bit = 1 << (number & 63);
        let added = *word & bit == 0;
        *word |= bit;
        added
    }
}

#[cfg(test)]
mod tests {
    use super::*;

    #[test]
    fn columns_are_rows_turned() {
        let rows: [u64; 8] = std::array::from_fn(|r| 0x9e37_79b9_7f4a_7c15_u64.rotate_left(9 * r as u32));
        for (c, column) in columns(&rows).iter().enumerate() {
            for (r, row) in rows.iter().enumerate() {
                assert_eq!(u64::from(column >> r & 1), row >> c & 1);
            }
        }
    }

    #[test]
    fn runs_are_apart_and_whole() {
        assert_eq!(runs(0).count(), 0);
        assert!(runs(u64::MAX).eq([(0, 63)]));
        assert!(runs(0b1011_0111).eq([(0, 2), (4, 5), (7, 7)]));
        assert!(runs(1 << 63 | 1).eq([(0, 0), (63, 63)]));
    }

    #[test]
    fn lowest_counts_from_the_right() {
        assert_eq!(lowest(0b1011_0100, 2), 0b0001_0100);
        assert_eq!(lowest(0b1011_0100, 9), 0b1011_0100);
        assert_eq!(lowest(0b1011_0100, 0), 0);
    }
}
