//! Times both planners in one run, on the same inputs, and how the times grow.

use std::time::Duration;

use bench::loads::{self, Load};
use bench::sides::{agree, independent, proved, Run};
use bench::text::{Job, TEXT_LIMIT};

/// Samples for each median, after as many tries as warm-up.
const SAMPLES: usize = 201;
const WARM_UP: usize = 20;
/// A sample is at least so long, so that reading the clock does not count.
const SAMPLE: Duration = Duration::from_micros(100);
/// Loads that need a fresh state for each run hold so many states at most; more would leave the cache.
const MOST_STATES: usize = 16;

const NOTE: &str = "\
Each time is the median of 201 samples, taken alternately from both sides after a warm-up; a sample repeats its load
until it lasts 100 microseconds (calls: 16 times, each on its own copy of the frame, copied before the clock starts).
Buffers are allocated once and are not cleared between repeats: a planner writes what it yields over what was there.
A running call finds a frame whose parts only the planner can change. A checked call is handed a table and tests it
for well-formedness first. A listing is everything from the text to the output's bytes. Rows are read into a head, or
written from one, that was read before; the proved planner is handed its records and tests them first.
";

const SLOTS: [usize; 4] = [8, 16, 32, 64];
const PRESETS: [usize; 4] = [4, 8, 16, 32];
/// How many bridges of 56 optional cells each.
const BRIDGES: [usize; 4] = [1, 2, 4, 8];
const BYTES: [usize; 4] = [4_096, 8_192, 16_384, 32_768];

type Row = (String, Load);

fn main() {
    println!("{NOTE}");
    table("The four loads", &four_loads());
    reading();
    planning();
    calls("by optional cells", &BRIDGES.map(|b| Sized::new(56 * b, loads::optional_cells(b, b), b, 56)));
    calls("7 optional cells in each slot, by slots", &SLOTS.map(|s| Sized::new(s, loads::optional_slots(s), 7, s)));
    calls("224 optional cells, by presets", &PRESETS.map(|p| Sized::new(p, loads::optional_cells(4, p), 4, 56)));
    table("Contest day, 32 presets, by slots", &SLOTS.map(|s| named(s, Load::Listing(loads::contest_day(s, 32)))));
    table("Contest day, 64 slots, by presets", &PRESETS.map(|p| named(p, Load::Listing(loads::contest_day(64, p)))));
    rows();
}

fn named(size: usize, load: Load) -> Row {
    (size.to_string(), load)
}

fn four_loads() -> Vec<Row> {
    let cells = || loads::optional_cells(8, 8);
    // One job too long for the 56 slots: the search finds that out at the very end.
    let long = || loads::jobs(1, 57);
    let day = loads::contest_day(64, 32);
    let events = loads::event_count(&day);
    let row = |name: &str, load| (name.to_owned(), load);
    vec![
        row("(a) read 32,768 bytes of events", Load::Read(loads::events(32_768))),
        row("(a) listing", Load::Listing(loads::events(32_768))),
        row("(b) plan 64 x 8, 32 presets", Load::Plan(loads::head(64, 32))),
        row("(b) listing", Load::Listing(loads::head(64, 32))),
        row("(c) running call refused after 448 cells", Load::Call(cells(), long())),
        row("(c) checked call refused after 448 cells", Load::CheckedCall(cells(), long())),
        row("(c) listing of 2,000 of them", Load::Listing(loads::repeated_call(cells(), &long(), 2_000))),
        row("(c) running call that evicts 448 cells", Load::Call(cells(), loads::jobs(8, 56))),
        row("(c) checked call that evicts 448 cells", Load::CheckedCall(cells(), loads::jobs(8, 56))),
        row(&format!("(d) contest day of {events} events, listing"), Load::Listing(day)),
    ]
}

fn reading() {
    table("Reading, by bytes", &BYTES.map(|bytes| named(bytes, Load::Read(loads::events(bytes)))));
    table("Reading, listing", &BYTES.map(|bytes| named(bytes, Load::Listing(loads::events(bytes)))));
}

fn planning() {
    table("Planning 8 bridges, 32 presets, by slots", &SLOTS.map(|s| named(s, Load::Plan(loads::head(s, 32)))));
    table("the same, listing", &SLOTS.map(|s| named(s, Load::Listing(loads::head(s, 32)))));
    table("Planning 64 x 8, by presets", &PRESETS.map(|p| named(p, Load::Plan(loads::head(64, p)))));
    table("the same, listing", &PRESETS.map(|p| named(p, Load::Listing(loads::head(64, p)))));
    ties();
    supply();
}

/// The largest plan under both orders of ties, and one of as many equal needs as a frame can have, where ties decide in three
/// slots of four.
fn ties() {
    let both = |name: &str, head: Vec<u8>, load: fn(Vec<u8>) -> Load| {
        let held = loads::held(head.clone());
        [(format!("{name}, place"), load(head)), (format!("{name}, hold"), load(held))]
    };
    let rows = [
        both("plan 64 x 8, 32 presets", loads::head(64, 32), Load::Plan),
        both("listing", loads::head(64, 32), Load::Listing),
        both("plan 64 x 8, 32 equal presets", loads::equal_presets(), Load::Plan),
        both("listing", loads::equal_presets(), Load::Listing),
    ];
    table("The order of ties", &rows.into_iter().flatten().collect::<Vec<_>>());
}

/// The largest plan, and calls that evict, without a supply and under one; eight motors cap nothing. Under four the plan of
/// `optional_cells` has four optional cells in a slot and four empty ones, which no motor is left for.
fn supply() {
    let (plan, cells) = (|| loads::head(64, 32), || loads::optional_cells(8, 8));
    let row = |name: &str, load| (name.to_owned(), load);
    let day = loads::contest_day(64, 32);
    let rows = [
        row("plan 64 x 8, 32 presets, no supply", Load::Plan(plan())),
        row("the same, eight motors", Load::Plan(loads::supplied(plan(), 8))),
        row("the same, six motors", Load::Plan(loads::supplied(plan(), 6))),
        row("the same, four motors", Load::Plan(loads::supplied(plan(), 4))),
        row("listing, no supply", Load::Listing(plan())),
        row("listing, four motors", Load::Listing(loads::supplied(plan(), 4))),
        row("checked call that evicts 224 cells, no supply", {
            Load::CheckedCall(loads::optional_cells(4, 4), loads::jobs(4, 56))
        }),
        row("the same, four motors for eight bridges", {
            Load::CheckedCall(loads::supplied(cells(), 4), loads::jobs(4, 56))
        }),
        row("checked call that evicts 448 cells, eight motors", {
            Load::CheckedCall(loads::supplied(cells(), 8), loads::jobs(8, 56))
        }),
        row("checked call refused for a fifth job, four motors", {
            Load::CheckedCall(loads::supplied(cells(), 4), loads::jobs(5, 56))
        }),
        row("contest day, listing, no supply", Load::Listing(day.clone())),
        row("the same, four motors", Load::Listing(supplied_day(day, 4))),
    ];
    table("The supply", &rows);
}

/// A text of the longest length has no room for another line: what is too much goes from its end.
fn supplied_day(day: Vec<u8>, motors: usize) -> Vec<u8> {
    let mut text = loads::supplied(day, motors);
    while text.len() > TEXT_LIMIT {
        text.pop();
        text.truncate(text.iter().rposition(|&byte| byte == b'\n').expect("a line before it") + 1);
    }
    text
}

fn rows() {
    let reading = |bytes| Load::ReadRows(loads::head(64, 32), loads::rows(bytes));
    let row = |name: &str, load| (name.to_owned(), load);
    table(
        "Rows of a spreadsheet, 64 x 8, 32 presets",
        &[
            row("read 32,768 bytes of rows", reading(32_768)),
            row("write the most rows, 256", Load::WriteRows(loads::most_rows())),
        ],
    );
    table_of("Reading rows, by bytes, a byte", &BYTES.map(|bytes| named(bytes, reading(bytes))), a_byte);
}

/// One size of a frame whose free cells are all optional, so many bridges of them in so many slots.
struct Sized {
    size: usize,
    head: Vec<u8>,
    bridges: usize,
    slots: usize,
}

impl Sized {
    fn new(size: usize, head: Vec<u8>, bridges: usize, slots: usize) -> Self {
        Sized { size, head, bridges, slots }
    }

    /// A call that evicts every cell.
    fn evicting(&self, load: fn(Vec<u8>, Vec<Job>) -> Load) -> Row {
        named(self.size, load(self.head.clone(), loads::jobs(self.bridges, self.slots)))
    }

    /// 300 calls that each look through every cell, find all of them useful, and are refused for one job too many or
    /// too long.
    fn refused(&self) -> Row {
        let jobs = if self.bridges < 8 { loads::jobs(8, self.slots) } else { loads::jobs(8, self.slots + 1) };
        named(self.size, Load::Listing(loads::repeated_call(self.head.clone(), &jobs, 300)))
    }
}

fn calls(what: &str, sizes: &[Sized]) {
    let rows = |row: &dyn Fn(&Sized) -> Row| sizes.iter().map(row).collect::<Vec<_>>();
    table(&format!("Running call, {what}"), &rows(&|sized| sized.evicting(Load::Call)));
    table(&format!("Checked call, {what}"), &rows(&|sized| sized.evicting(Load::CheckedCall)));
    table(&format!("300 refused calls, {what}"), &rows(&Sized::refused));
}

fn table(title: &str, rows: &[Row]) {
    table_of(title, rows, |_, time| shown(time));
}

/// A table whose times are shown so.
fn table_of(title: &str, rows: &[Row], shown: fn(&Load, Duration) -> String) {
    println!("{title:<60}{:>14}{:>14}{:>9}", "independent", "proved", "ratio");
    for (name, load) in rows {
        let (ours, theirs) = compare(name, load);
        let proved = theirs.map_or("-".into(), |theirs| shown(load, theirs));
        let ratio = theirs.map_or("-".into(), |theirs| format!("{:.2}", theirs.as_secs_f64() / ours.as_secs_f64()));
        println!("  {name:<58}{:>14}{proved:>14}{ratio:>9}", shown(load, ours));
    }
    println!();
}

/// The median times of both sides, their samples taken in turn.
fn compare(name: &str, load: &Load) -> (Duration, Option<Duration>) {
    assert!(agree(load), "{name}: the sides print different listings");
    let mut ours = Sampler::new(independent(load).expect("it runs every load"), load);
    let mut theirs = proved(load).map(|run| Sampler::new(run, load));
    if let Some(theirs) = &theirs {
        assert_eq!(ours.result, theirs.result, "{name}: the sides differ");
    }
    for _ in 0..SAMPLES {
        ours.sample();
        theirs.iter_mut().for_each(Sampler::sample);
    }
    (ours.median(), theirs.map(|mut theirs| theirs.median()))
}

struct Sampler<'a> {
    run: Run<'a>,
    repeats: usize,
    result: u64,
    samples: Vec<Duration>,
}

impl<'a> Sampler<'a> {
    fn new(mut run: Run<'a>, load: &Load) -> Self {
        let most = if matches!(load, Load::Call(..) | Load::CheckedCall(..)) { MOST_STATES } else { usize::MAX };
        let mut repeats = 1;
        let (mut time, mut result) = run(repeats);
        while time < SAMPLE && repeats < most {
            repeats *= 2;
            (time, result) = run(repeats);
        }
        (0..WARM_UP).for_each(|_| {
            run(repeats);
        });
        Sampler { run, repeats, result, samples: Vec::with_capacity(SAMPLES) }
    }

    fn sample(&mut self) {
        let (time, result) = (self.run)(self.repeats);
        assert_eq!(result, self.result, "the same load gives the same result");
        self.samples.push(time / self.repeats as u32);
    }

    fn median(&mut self) -> Duration {
        self.samples.sort_unstable();
        self.samples[self.samples.len() / 2]
    }
}

fn shown(time: Duration) -> String {
    format!("{:.3} us", time.as_secs_f64() * 1e6)
}

/// The time for each byte that is read.
fn a_byte(load: &Load, time: Duration) -> String {
    format!("{:.3} ns", time.as_secs_f64() * 1e9 / load.bytes() as f64)
}
