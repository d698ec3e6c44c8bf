//! Compares both readers and writers of rows on inputs made by seed: every byte that the program `rows` prints, and with
//! the feature `archive` every number and byte that the library's two functions for rows leave.
//!
//! `compare_rows [inputs] [first seed]`: 10,000 inputs from seed 0 unless told otherwise. Exit status 1 on any
//! difference.

use std::process::ExitCode;

use bench::head::Head;
use bench::texts::rows::{input, kinds};
use bench::texts::Text;
use bench::{proved, rows};

/// Differences shown in full.
const SHOWN: usize = 3;
const CAUSES: usize = 13;

#[derive(Default)]
struct Tally {
    inputs: u64,
    bytes: u64,
    printed: u64,
    different: u64,
    /// Heads written with rows in them, heads written as rows, and how many of both have an order of ties or a supply.
    taken: u64,
    written: u64,
    tied: u64,
    supplied: u64,
    /// Refusals by cause, of heads and of rows.
    heads: [u64; CAUSES],
    rows: [u64; CAUSES],
}

fn main() -> ExitCode {
    let mut arguments = std::env::args().skip(1).map(|word| word.parse::<u64>().expect("a number"));
    let count = arguments.next().unwrap_or(10_000);
    let first = arguments.next().unwrap_or(0);
    let mut tallies: Vec<(&str, Tally)> = kinds().map(|name| (name, Tally::default())).collect();
    let mut library = library::Comparison::default();
    let mut shown = 0;
    for seed in first..first + count {
        let text = input(seed);
        let mut independent = Vec::new();
        rows::convert(&text.bytes, &mut independent);
        let proved = proved::rows(&text.bytes);
        let (_, tally) = tallies.iter_mut().find(|(name, _)| *name == text.kind).expect("one of the kinds");
        tally.add(&text.bytes, &independent, independent == proved);
        if independent != proved && shown < SHOWN {
            shown += 1;
            show(seed, &text, &independent, &proved);
        }
        library.compare(seed, &text.bytes);
    }
    let different = report(&tallies) + library.report();
    if different > 0 {
        ExitCode::FAILURE
    } else {
        ExitCode::SUCCESS
    }
}

impl Tally {
    fn add(&mut self, input: &[u8], printed: &[u8], same: bool) {
        self.inputs += 1;
        self.bytes += input.len() as u64;
        self.printed += printed.len() as u64;
        self.different += u64::from(!same);
        let (text, rows) = rows::split(input);
        match rows::read_head(text) {
            Ok(head) => self.add_head(head, rows),
            Err((_, refusal)) => self.heads[usize::from(refusal.number())] += 1,
        }
    }

    fn add_head(&mut self, mut head: Head, rows: Option<&[u8]>) {
        match rows.map(|rows| rows::read(rows, &mut head)) {
            None => self.written += 1,
            Some(Ok(_)) => self.taken += 1,
            Some(Err((_, refusal))) => {
                self.rows[usize::from(refusal.number())] += 1;
                return;
            }
        }
        self.tied += u64::from(head.hold);
        self.supplied += u64::from(head.supply.is_some());
    }
}

fn show(seed: u64, text: &Text, independent: &[u8], proved: &[u8]) {
    println!("DIFFERENCE at seed {seed}, {}", text.kind);
    println!("input:\n{}", escaped(&text.bytes));
    println!("independent:\n{}", escaped(independent));
    println!("proved:\n{}\n", escaped(proved));
}

/// As it stands, with bytes that do not print written out and line ends kept.
fn escaped(bytes: &[u8]) -> String {
    bytes.escape_ascii().to_string().replace("\\n", "\\n\n")
}

/// Yields how many differ.
fn report(tallies: &[(&str, Tally)]) -> u64 {
    let total = |field: fn(&Tally) -> u64| tallies.iter().map(|(_, tally)| field(tally)).sum::<u64>();
    println!("{:<18}{:>9}{:>12}{:>14}{:>10}", "kind of input", "inputs", "rows taken", "rows written", "differ");
    for (name, tally) in tallies {
        let Tally { inputs, taken, written, different, .. } = tally;
        println!("{name:<18}{inputs:>9}{taken:>12}{written:>14}{different:>10}");
    }
    println!("\n{:<18}{:>9}{:>12}", "cause met", "heads", "rows");
    for cause in [1, 2, 3, 4, 9, 10, 12] {
        let heads: u64 = tallies.iter().map(|(_, tally)| tally.heads[cause]).sum();
        let rows: u64 = tallies.iter().map(|(_, tally)| tally.rows[cause]).sum();
        println!("{cause:<18}{heads:>9}{rows:>12}");
    }
    let (taken, written, tied) = (total(|t| t.taken), total(|t| t.written), total(|t| t.tied));
    println!("\naccepted: {taken} with rows in place of the busy lines, {written} written as rows;");
    println!("{tied} heads with hold, {} with a supply", total(|t| t.supplied));
    let (inputs, bytes, printed) = (total(|t| t.inputs), total(|t| t.bytes), total(|t| t.printed));
    let different = total(|t| t.different);
    println!("{inputs} inputs of {bytes} bytes, {printed} bytes of output: {different} differ");
    different
}

/// The library's functions on the records of each accepted head: rows are read into them, and written from what is left.
#[cfg(feature = "archive")]
mod library {
    use bench::lent::Lent;
    use bench::texts::rng::Rng;
    use bench::texts::rows::records;
    use bench::{proved, rows};

    use super::{escaped, CAUSES, SHOWN};

    #[derive(Default)]
    pub struct Comparison {
        /// Answers by cause, 0 being accepted.
        read: [u64; CAUSES],
        written: [u64; CAUSES],
        different: u64,
    }

    impl Comparison {
        pub fn compare(&mut self, seed: u64, input: &[u8]) {
            let (text, rows) = rows::split(input);
            let Ok(head) = rows::read_head(text) else {
                return;
            };
            // Not the sequence that made the input.
            let mut rng = Rng::new(!seed);
            let mut lent = records::lent(&mut rng, &head);
            if let Some(rows) = rows {
                self.read(seed, &mut lent, rows);
            }
            let mut out = records::out(&mut rng);
            self.write(seed, &lent, &mut out);
        }

        fn read(&mut self, seed: u64, lent: &mut Lent, rows: &[u8]) {
            let before = lent.clone();
            let mut other = lent.clone();
            let independent = match lent.read_rows(rows) {
                Ok(count) => (0, u64::from(count)),
                Err((row, refusal)) => (u32::from(refusal.number()), u64::from(row)),
            };
            let proved = proved::read_rows(&mut other, rows);
            self.read[independent.0 as usize] += 1;
            if independent != proved || *lent != other {
                self.show(seed, &before, &format!("{independent:?} {lent:?}"), &format!("{proved:?} {other:?}"));
            }
        }

        fn write(&mut self, seed: u64, lent: &Lent, out: &mut [u8]) {
            let mut other = out.to_vec();
            let independent = match lent.write_rows(out) {
                Ok(bytes) => (0, bytes as u64),
                Err(refusal) => (u32::from(refusal.number()), 0),
            };
            let proved = proved::write_rows(lent, &mut other);
            self.written[independent.0 as usize] += 1;
            if independent != proved || *out != other {
                let shown = |answer, out: &[u8]| format!("{answer:?} {}", escaped(&out[..out.len().min(2_300)]));
                self.show(seed, lent, &shown(independent, out), &shown(proved, &other));
            }
        }

        fn show(&mut self, seed: u64, lent: &Lent, independent: &str, proved: &str) {
            self.different += 1;
            if self.different <= SHOWN as u64 {
                println!("DIFFERENCE of the library at seed {seed}");
                println!("lent: {lent:?}\nindependent:\n{independent}\nproved:\n{proved}\n");
            }
        }

        /// Yields how many calls differ.
        pub fn report(&self) -> u64 {
            println!("\n{:<18}{:>9}{:>12}", "library's answer", "read", "written");
            for cause in [0, 2, 8, 10, 12] {
                println!("{cause:<18}{:>9}{:>12}", self.read[cause], self.written[cause]);
            }
            let calls: u64 = self.read.iter().chain(&self.written).sum();
            println!("{calls} calls of the library: {} differ", self.different);
            self.different
        }
    }
}

/// Without the library there is nothing to be compared.
#[cfg(not(feature = "archive"))]
mod library {
    #[derive(Default)]
    pub struct Comparison {}

    impl Comparison {
        pub fn compare(&mut self, _seed: u64, _input: &[u8]) {}

        pub fn report(&self) -> u64 {
            0
        }
    }
}
