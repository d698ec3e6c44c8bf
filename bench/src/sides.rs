//! The two planners as the benchmark sees them: one function each, from a load to something that runs it n times.
//! Both are timed by the same two functions below, and what they compute is used.

use std::hint::black_box;
use std::time::{Duration, Instant};

use crate::frame::{Frame, Table, CELLS};
use crate::head::{self, Head};
use crate::listing::Listing;
use crate::loads::Load;
use crate::text::{lines, Call, Job};
use crate::{lent, planner, proved, rows};

/// Runs a load so many times; yields the time and a number that tells the result (lines with an event's form, slots
/// granted, cells evicted, bytes printed, rows with the cells that they took), the same for both sides.
pub type Run<'a> = Box<dyn FnMut(usize) -> (Duration, u64) + 'a>;

/// Stands for a refused call in a result.
const REFUSED: u64 = 1 << 32;

/// The independent planner; it can run every load.
pub fn independent(load: &Load) -> Option<Run<'_>> {
    Some(match load {
        Load::Read(text) => repeated(move || event_lines(black_box(text))),
        Load::Plan(text) => {
            let head = read_head(text);
            let mut table = [0; CELLS];
            repeated(move || plan(black_box(&head), &mut table))
        }
        Load::Call(text, jobs) => {
            let (frame, _) = Frame::plan(&read_head(text)).expect("the loads are feasible");
            each(frame, move |frame| running_call(frame, black_box(jobs)))
        }
        Load::CheckedCall(text, jobs) => {
            let head = read_head(text);
            let (frame, _) = Frame::plan(&head).expect("the loads are feasible");
            each(*frame.table(), move |table| checked_call(black_box(&head), table, black_box(jobs)))
        }
        Load::Listing(text) => {
            let mut out = Vec::with_capacity(proved::OUT);
            repeated(move || {
                out.clear();
                planner::listing(black_box(text), &mut out);
                black_box(&out).len() as u64
            })
        }
        Load::ReadRows(text, rows) => {
            let mut head = read_head(text);
            repeated(move || {
                let count = rows::read(black_box(rows), black_box(&mut head)).expect("the loads are good");
                rows_result(u64::from(count), &head.busy)
            })
        }
        Load::WriteRows(text) => {
            let (head, mut out) = (read_head(text), Vec::with_capacity(lent::OUT));
            repeated(move || {
                out.clear();
                Listing { out: &mut out }.rows(black_box(&head));
                black_box(&out).len() as u64
            })
        }
    })
}

/// The proved planner, once it is in this process: the loads that its interface has. It reads no line by itself, and
/// every event that is handed over alone is a checked one.
#[cfg(feature = "archive")]
pub fn proved(load: &Load) -> Option<Run<'_>> {
    match load {
        Load::Listing(text) => {
            let (mut table, mut out) = (vec![0; CELLS], vec![0; proved::OUT]);
            Some(repeated(move || {
                let length = proved::listing(black_box(text), &mut table, &mut out);
                black_box(&table);
                black_box(&out[..length]).len() as u64
            }))
        }
        Load::Plan(text) => {
            let (mut running, mut grants) = (proved::run_text(text), [0; proved::GRANTS]);
            Some(repeated(move || {
                assert_eq!(proved::plan(black_box(&mut running), &mut grants), 0, "the loads are feasible");
                black_box(&running.table);
                grants.iter().map(|&grant| u64::from(grant)).sum()
            }))
        }
        Load::CheckedCall(text, jobs) => {
            let line = crate::loads::call_line(jobs);
            Some(each(proved::run_text(text), move |running| {
                proved::event(running, black_box(&line)).unwrap_or(REFUSED)
            }))
        }
        Load::ReadRows(text, rows) => {
            let mut lent = lent::Lent::new(&read_head(text));
            Some(repeated(move || {
                let (cause, count) = proved::read_rows(black_box(&mut lent), black_box(rows));
                assert_eq!(cause, 0, "the loads are good");
                rows_result(count, &lent.frame[lent::BUSY..][..head::BRIDGES])
            }))
        }
        Load::WriteRows(text) => {
            let (lent, mut out) = (lent::Lent::new(&read_head(text)), vec![0; lent::OUT]);
            Some(repeated(move || {
                let (cause, bytes) = proved::write_rows(black_box(&lent), &mut out);
                assert_eq!(cause, 0, "the loads are good");
                black_box(&out);
                bytes
            }))
        }
        Load::Read(_) | Load::Call(..) => None,
    }
}

#[cfg(not(feature = "archive"))]
pub fn proved(_load: &Load) -> Option<Run<'_>> {
    None
}

/// Whether both print the same for a listing's load. Other loads are not asked, nor is a proved planner elsewhere.
pub fn agree(load: &Load) -> bool {
    let Load::Listing(text) = load else {
        return true;
    };
    if !proved::IN_PROCESS {
        return true;
    }
    let (mut ours, mut table, mut theirs) = (Vec::new(), vec![0; CELLS], vec![0; proved::OUT]);
    planner::listing(text, &mut ours);
    let length = proved::listing(text, &mut table, &mut theirs);
    ours == theirs[..length]
}

/// Times n runs on the same state.
fn repeated<'a>(mut run: impl FnMut() -> u64 + 'a) -> Run<'a> {
    Box::new(move |n| {
        let mut result = 0;
        let start = Instant::now();
        for _ in 0..n {
            result = black_box(run());
        }
        (start.elapsed(), result)
    })
}

/// Times n runs, each on its own copy of a state. The copies are made before the clock starts.
fn each<'a, State: Clone + 'a>(state: State, mut run: impl FnMut(&mut State) -> u64 + 'a) -> Run<'a> {
    let mut copies = Vec::new();
    Box::new(move |n| {
        copies.clear();
        copies.resize(n, state.clone());
        let mut result = 0;
        let start = Instant::now();
        for copy in &mut copies {
            result = black_box(run(copy));
        }
        let time = start.elapsed();
        black_box(&copies);
        (time, result)
    })
}

fn event_lines(text: &[u8]) -> u64 {
    lines(text).filter(|line| black_box(line).form.is_some_and(|form| form.is_event())).count() as u64
}

/// How many rows there were, and how many cells they took.
fn rows_result(count: u64, busy: &[u64]) -> u64 {
    count << 10 | busy.iter().map(|slots| u64::from(slots.count_ones())).sum::<u64>()
}

fn read_head(text: &[u8]) -> Head {
    head::read(&mut lines(text)).expect("the loads are good")
}

fn plan(head: &Head, table: &mut Table) -> u64 {
    let (frame, grants) = Frame::plan(head).expect("the loads are feasible");
    table.copy_from_slice(frame.table());
    black_box(table);
    grants.iter().map(|&grant| u64::from(grant)).sum()
}

fn running_call(frame: &mut Frame, jobs: &[Job]) -> u64 {
    let call = Call::new(jobs).expect("the loads are within limits");
    frame.call(&call).map_or(REFUSED, u64::from)
}

fn checked_call(head: &Head, table: &mut Table, jobs: &[Job]) -> u64 {
    let mut frame = Frame::resume(head, table, 0, head.hold).expect("the loads are well-formed");
    let result = running_call(&mut frame, jobs);
    table.copy_from_slice(frame.table());
    result
}
