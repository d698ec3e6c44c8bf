//! Compares the two planners on texts made by seed, every byte of what they print. Says too how much the texts ask for:
//! the causes that they meet, and how often the order of ties, the supply and the clock's own slot make a difference.
//!
//! `compare [texts] [first seed]`: 100,000 texts from seed 0 unless told otherwise. Exit status 1 on any difference.

use std::cmp::Ordering;
use std::process::ExitCode;

use bench::cap::{felt, Felt};
use bench::frame::CELLS;
use bench::head::Head;
use bench::own_slot::{missed, Missed};
use bench::rows::read_head;
use bench::texts::{by_place, holds_in_head, kinds, text, Text};
use bench::{planner, proved};

/// Differences shown in full.
const SHOWN: usize = 3;
const CAUSES: usize = 12;

#[derive(Default)]
struct Tally {
    texts: u64,
    bytes: u64,
    different: u64,
    accepted_heads: u64,
    lines: u64,
    heads: [u64; CAUSES],
    events: [u64; CAUSES],
    clocks: u64,
    calls: u64,
    evicting_calls: u64,
    tie_events: u64,
    /// Of the texts whose head is accepted: those with hold in it, those with hold anywhere, and of these the ones whose
    /// table would be another under place.
    tied_heads: u64,
    held: u64,
    held_otherwise: u64,
    supply: Supply,
    /// Of the texts whose head is accepted: those with calls that miss the clock's own slot, and these calls.
    missing: u64,
    missed: Missed,
}

/// The texts whose head has a supply and no line at fault: what it is, and where it makes the difference.
#[derive(Default)]
struct Supply {
    /// By how the motors compare to the bridges: below, equal, above.
    below: u64,
    equal: u64,
    above: u64,
    tied: u64,
    refused_heads: u64,
    granted_less: u64,
    planned_otherwise: u64,
    evicting_more: u64,
    without_place: u64,
}

impl Supply {
    fn add(&mut self, head: &Head, motors: u8, felt: Felt) {
        match usize::from(motors).cmp(&head.bridges) {
            Ordering::Less => self.below += 1,
            Ordering::Equal => self.equal += 1,
            Ordering::Greater => self.above += 1,
        }
        self.tied += u64::from(head.hold);
        self.refused_heads += u64::from(felt.head_refused);
        self.granted_less += u64::from(felt.granted_less);
        self.planned_otherwise += u64::from(felt.planned_otherwise);
        self.evicting_more += felt.evicting_more;
        self.without_place += felt.without_place;
    }
}

fn main() -> ExitCode {
    let mut arguments = std::env::args().skip(1).map(|word| word.parse::<u64>().expect("a number"));
    let count = arguments.next().unwrap_or(100_000);
    let first = arguments.next().unwrap_or(0);
    let mut tallies: Vec<(&str, Tally)> = kinds().map(|name| (name, Tally::default())).collect();
    let mut comparison = Comparison::new();
    for seed in first..first + count {
        let text = text(seed);
        let same = comparison.same(&text.bytes);
        let (_, tally) = tallies.iter_mut().find(|(name, _)| *name == text.kind).expect("one of the kinds");
        tally.add(&text, &comparison.independent, same);
        if !same && comparison.shown < SHOWN {
            comparison.show(seed, &text);
        }
    }
    report(&tallies)
}

struct Comparison {
    independent: Vec<u8>,
    table: Vec<u16>,
    proved: Vec<u8>,
    proved_length: usize,
    shown: usize,
}

impl Comparison {
    fn new() -> Self {
        let (table, proved) = (vec![0; CELLS], vec![0; proved::OUT]);
        Comparison { independent: Vec::new(), table, proved, proved_length: 0, shown: 0 }
    }

    fn same(&mut self, text: &[u8]) -> bool {
        self.independent.clear();
        planner::listing(text, &mut self.independent);
        self.proved_length = proved::listing(text, &mut self.table, &mut self.proved);
        self.independent == self.proved[..self.proved_length]
    }

    fn show(&mut self, seed: u64, text: &Text) {
        self.shown += 1;
        println!("DIFFERENCE at seed {seed}, {}", text.kind);
        println!("text:\n{}", escaped(&text.bytes));
        println!("independent:\n{}", escaped(&self.independent));
        println!("proved:\n{}\n", escaped(&self.proved[..self.proved_length]));
    }
}

/// As it stands, with bytes that do not print written out and line ends kept.
fn escaped(bytes: &[u8]) -> String {
    bytes.escape_ascii().to_string().replace("\\n", "\\n\n")
}

impl Tally {
    fn add(&mut self, text: &Text, listing: &[u8], same: bool) {
        self.texts += 1;
        self.bytes += text.bytes.len() as u64;
        self.different += u64::from(!same);
        // A refused head prints one line and no slots.
        let refused_head = listing.split(|&byte| byte == b'\n').count() == 2 && listing.starts_with(b"(refused");
        self.accepted_heads += u64::from(!refused_head);
        let causes = if refused_head { &mut self.heads } else { &mut self.events };
        for line in listing.split(|&byte| byte == b'\n') {
            self.lines += 1;
            if line.starts_with(b"(refused ") {
                causes[last_number(line)] += 1;
            }
            self.clocks += u64::from(line.starts_with(b"(now "));
            self.tie_events += u64::from(line.starts_with(b"(tie "));
            let call = line.starts_with(b"(taken ");
            self.calls += u64::from(call);
            self.evicting_calls += u64::from(call && last_number(line) > 0);
        }
        // What follows the last byte 10 is no line.
        self.lines -= 1;
        if !refused_head {
            self.add_ties(&text.bytes, listing);
            self.add_own_slot(&text.bytes);
        }
        self.add_supply(&text.bytes);
    }

    fn add_supply(&mut self, text: &[u8]) {
        let Ok(head) = read_head(text) else {
            return;
        };
        if let (Some(motors), Some(felt)) = (head.supply, felt(text)) {
            self.supply.add(&head, motors, felt);
        }
    }

    fn add_own_slot(&mut self, text: &[u8]) {
        let missed = missed(text).expect("the head is accepted");
        self.missing += u64::from(missed != Missed::default());
        self.missed.add(missed);
    }

    fn add_ties(&mut self, text: &[u8], listing: &[u8]) {
        let other = by_place(text);
        if other == text {
            return;
        }
        let mut place = Vec::new();
        planner::listing(&other, &mut place);
        self.tied_heads += u64::from(holds_in_head(text));
        self.held += 1;
        self.held_otherwise += u64::from(!slots(listing).eq(slots(&place)));
    }
}

/// The lines of a listing that show the table.
fn slots(listing: &[u8]) -> impl Iterator<Item = &[u8]> {
    listing.split(|&byte| byte == b'\n').filter(|line| line.starts_with(b"(slot "))
}

/// The cause of a refused line, the cells of a taken one.
fn last_number(line: &[u8]) -> usize {
    let word = line.rsplit(|&byte| byte == b' ').next().unwrap_or(&[]);
    word.iter().filter(|byte| byte.is_ascii_digit()).fold(0, |value, digit| 10 * value + usize::from(digit - b'0'))
}

fn report_supply(tallies: &[(&str, Tally)]) {
    let total = |field: fn(&Supply) -> u64| tallies.iter().map(|(_, tally)| field(&tally.supply)).sum::<u64>();
    let (below, equal, above) = (total(|s| s.below), total(|s| s.equal), total(|s| s.above));
    let (heads, tied) = (below + equal + above, total(|s| s.tied));
    println!("{heads} heads without a line at fault have a supply, {tied} of them (tie hold) after it;");
    println!("it feeds fewer motors than there are bridges in {below}, as many in {equal}, more in {above};");
    let (refused, less, otherwise) =
        (total(|s| s.refused_heads), total(|s| s.granted_less), total(|s| s.planned_otherwise));
    println!("by it {refused} meet 5, {less} grant less, {otherwise} have another plan;");
    let (evicting, without) = (total(|s| s.evicting_more), total(|s| s.without_place));
    println!("by it {evicting} calls evict more cells of the table that they find and {without} meet 7");
}

fn report_own_slot(tallies: &[(&str, Tally)]) {
    let total = |field: fn(&Tally) -> u64| tallies.iter().map(|(_, tally)| field(tally)).sum::<u64>();
    let (texts, without) = (total(|t| t.missing), total(|t| t.missed.without_place));
    let (otherwise, evicting) = (total(|t| t.missed.placed_otherwise), total(|t| t.missed.evicting_more));
    println!("in {texts} texts there are calls that would end otherwise if they could use the clock's own slot:");
    println!("without it {without} meet 7, {otherwise} leave another table and {evicting} of these evict more cells");
}

fn report(tallies: &[(&str, Tally)]) -> ExitCode {
    let total = |field: fn(&Tally) -> u64| tallies.iter().map(|(_, tally)| field(tally)).sum::<u64>();
    println!("{:<18}{:>9}{:>14}{:>12}{:>10}", "kind of text", "texts", "heads taken", "lines out", "differ");
    for (name, tally) in tallies {
        let Tally { texts, accepted_heads, lines, different, .. } = tally;
        println!("{name:<18}{texts:>9}{accepted_heads:>14}{lines:>12}{different:>10}");
    }
    println!("\n{:<18}{:>9}{:>14}", "cause met", "heads", "events");
    for cause in [1, 2, 3, 4, 5, 6, 7, 9, 10] {
        let heads: u64 = tallies.iter().map(|(_, tally)| tally.heads[cause]).sum();
        let events: u64 = tallies.iter().map(|(_, tally)| tally.events[cause]).sum();
        println!("{cause:<18}{heads:>9}{events:>14}");
    }
    let (clocks, calls, evicting) = (total(|t| t.clocks), total(|t| t.calls), total(|t| t.evicting_calls));
    let (ties, tied_heads) = (total(|t| t.tie_events), total(|t| t.tied_heads));
    println!("\naccepted: {clocks} clocks, {calls} calls, {evicting} of them evicting, {ties} ties");
    let (held, otherwise) = (total(|t| t.held), total(|t| t.held_otherwise));
    let heads = total(|t| t.accepted_heads);
    println!("of {heads} texts whose head is accepted {tied_heads} have (tie hold) in it, {held} have it anywhere;");
    println!("{otherwise} of these have another table under place");
    report_supply(tallies);
    report_own_slot(tallies);
    let (texts, bytes, lines) = (total(|t| t.texts), total(|t| t.bytes), total(|t| t.lines));
    let different = total(|t| t.different);
    println!("{texts} texts of {bytes} bytes, {lines} lines of output: {different} differ");
    if different > 0 {
        return ExitCode::FAILURE;
    }
    ExitCode::SUCCESS
}
