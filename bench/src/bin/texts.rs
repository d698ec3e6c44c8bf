//! Writes the texts of `compare` to files, for other programs to be tried on.
//!
//! `texts FOLDER [texts] [first seed]`: 100 texts from seed 0 unless told otherwise, each to FOLDER/SEED.station.

use std::path::PathBuf;

fn main() -> std::io::Result<()> {
    let mut words = std::env::args().skip(1);
    let folder = PathBuf::from(words.next().expect("a folder"));
    let mut numbers = words.map(|word| word.parse::<u64>().expect("a number"));
    let count = numbers.next().unwrap_or(100);
    let first = numbers.next().unwrap_or(0);
    for seed in first..first + count {
        std::fs::write(folder.join(format!("{seed}.station")), bench::texts::text(seed).bytes)?;
    }
    Ok(())
}
