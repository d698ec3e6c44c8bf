//! Tiny frames under a supply held against every placement there is: what is refused has none, what is accepted is one, and
//! none of them grants more or loses less. Every table is tried by the words of the scope document and of requests 2026-03 and
//! 2026-05, not by the planner's own check.

use bench::frame::{Answer, Frame, Table};
use bench::head::{self, Head};
use bench::refusal::Refusal;
use bench::text::{lines, Call, Form};
use bench::texts::rng::Rng;
use bench::texts::station::{Size, Station};
use bench::texts::tables::table;

type Rows = Vec<Vec<u16>>;

const BUSY: u16 = 256;
const MANDATORY: u16 = 2;
const OPTIONAL: u16 = 3;
const CALL: u16 = 4;

fn kind(cell: u16) -> u16 {
    cell >> 8
}

fn cell(kind: u16, number: u8) -> u16 {
    kind * 256 + u16::from(number)
}

/// Whether a slot may hold these cells: no number twice, and not more cells of presets and calls than the supply has motors.
fn row_fits(row: &[u16], head: &Head) -> bool {
    let held: Vec<u16> = row.iter().filter(|&&cell| kind(cell) >= MANDATORY).map(|cell| cell & 255).collect();
    let twice = held.iter().enumerate().any(|(place, number)| held[..place].contains(number));
    !twice && held.len() <= head.supply.map_or(8, usize::from)
}

/// Every row whose cells are drawn from these choices, one list for each bridge.
fn rows_of(choices: &[Vec<u16>], head: &Head) -> Rows {
    let mut rows = vec![Vec::new()];
    for choice in choices {
        let longer = |row: &Vec<u16>| choice.iter().map(|&cell| [&row[..], &[cell]].concat()).collect::<Rows>();
        rows = rows.iter().flat_map(longer).filter(|row| row_fits(row, head)).collect();
    }
    rows
}

/// Every table whose slots are drawn from these rows, handed over one by one.
fn each_table(slots: &[Rows], table: &mut Rows, each: &mut impl FnMut(&Rows)) {
    let Some(rows) = slots.get(table.len()) else {
        return each(table);
    };
    for row in rows {
        table.push(row.clone());
        each_table(slots, table, each);
        table.pop();
    }
}

fn rows(frame: &Frame) -> Rows {
    (0..frame.slots()).map(|slot| frame.row(slot).to_vec()).collect()
}

fn count(table: &Rows, content: u16) -> usize {
    table.iter().flatten().filter(|&&cell| cell == content).count()
}

/// Valid for a plan, the rows being so already.
fn is_plan(table: &Rows, head: &Head) -> bool {
    head.presets.iter().all(|preset| {
        let (mandatory, optional) = (cell(MANDATORY, preset.number), cell(OPTIONAL, preset.number));
        let first_optional = table.iter().position(|row| row.contains(&optional)).unwrap_or(table.len());
        count(table, mandatory) == usize::from(preset.mandatory)
            && count(table, optional) <= usize::from(preset.optional)
            && table[first_optional..].iter().all(|row| !row.contains(&mandatory))
    })
}

/// The optional cells of the first k presets by rank, for every k.
fn granted_by_rank(table: &Rows, head: &Head) -> Vec<usize> {
    let mut sum = 0;
    let optional = |place: &usize| {
        sum += count(table, cell(OPTIONAL, head.presets[*place].number));
        sum
    };
    head.ranking().iter().map(optional).collect()
}

/// The head's plan against all of them; true if it is refused.
fn try_plans(head: &Head) -> bool {
    let tasks = head.presets.iter().flat_map(|p| [cell(MANDATORY, p.number), cell(OPTIONAL, p.number)]);
    let free: Vec<u16> = [0].into_iter().chain(tasks).collect();
    let choices = |slot: usize| -> Vec<Vec<u16>> {
        let busy = |bridge: usize| head.busy[bridge] >> slot & 1 == 1;
        (0..head.bridges).map(|bridge| if busy(bridge) { vec![BUSY] } else { free.clone() }).collect()
    };
    let slots: Vec<Rows> = (0..head.slots).map(|slot| rows_of(&choices(slot), head)).collect();
    let planned = Frame::plan(head).map(|(frame, _)| rows(&frame));
    let (mut found, mut valid) = (false, false);
    each_table(&slots, &mut Vec::new(), &mut |table| {
        if !is_plan(table, head) {
            return;
        }
        found = true;
        let planned = planned.as_ref().expect("a head that has a plan is planned");
        valid |= table == planned;
        let ours = granted_by_rank(planned, head);
        assert!(
            granted_by_rank(table, head).iter().zip(&ours).all(|(other, ours)| other <= ours),
            "{head:?} {table:?}"
        );
    });
    assert_eq!(planned.is_ok(), found, "{head:?}");
    assert!(planned.is_err() || valid, "{head:?}");
    planned.is_err()
}

/// The optional cells that are gone, of presets with priority p or better, for every p.
fn lost(before: &Rows, after: &Rows, head: &Head) -> [usize; 10] {
    let gone = |number: u8| count(before, cell(OPTIONAL, number)) - count(after, cell(OPTIONAL, number));
    std::array::from_fn(|p| {
        head.presets.iter().filter(|preset| usize::from(preset.priority) <= p).map(|preset| gone(preset.number)).sum()
    })
}

/// Whether a slot, which counts from 0 in these tests, is above the clock, which counts slots from 1.
fn above(clock: usize, slot: usize) -> bool {
    let number = slot + 1;
    number > clock
}

/// One call at this clock against every table valid for it; yields how it ends.
fn try_call(head: &Head, clock: usize, frame: &mut Frame, call: &Call) -> Result<Answer, Refusal> {
    let before = rows(frame);
    let answer = frame.event(Some(Form::Call(Some(*call))));
    if !matches!(answer, Ok(_) | Err(Refusal::CallInfeasible)) {
        return answer;
    }
    let jobs: Vec<u16> = call.jobs().iter().map(|job| cell(CALL, job.number)).collect();
    // Up to the clock, its own slot included, every cell stays.
    let choices = |slot: usize, old: u16| match kind(old) {
        _ if !above(clock, slot) => vec![old],
        0 => [&[0], &jobs[..]].concat(),
        OPTIONAL => [&[old, 0], &jobs[..]].concat(),
        _ => vec![old],
    };
    let slot_rows =
        |(slot, row): (usize, &Vec<u16>)| rows_of(&row.iter().map(|&old| choices(slot, old)).collect::<Vec<_>>(), head);
    let slots: Vec<Rows> = before.iter().enumerate().map(slot_rows).collect();
    let after = rows(frame);
    let (ours, mut found, mut valid) = (lost(&before, &after, head), false, false);
    each_table(&slots, &mut Vec::new(), &mut |table| {
        let whole = call.jobs().iter().zip(&jobs).all(|(job, &cell)| count(table, cell) == usize::from(job.length));
        if whole {
            found = true;
            valid |= *table == after;
            assert!(
                lost(&before, table, head).iter().zip(&ours).all(|(other, ours)| ours <= other),
                "{head:?} {table:?}"
            );
        }
    });
    assert_eq!(answer.is_ok(), found, "{head:?} {before:?}");
    assert!(answer.is_err() || valid, "{head:?} {before:?} {after:?}");
    if let Ok(answer) = answer {
        assert_eq!(answer, Answer::Taken(ours[9] as u32));
    }
    answer
}

/// A tiny station, under a supply more often than not.
fn tiny(seed: u64) -> Station {
    let mut rng = Rng::new(seed);
    let (slots, bridges) = *rng.pick(&[((1, 2), (1, 4)), ((1, 2), (1, 3)), ((3, 3), (1, 3))]);
    let mut station = Station::new(&mut rng, Size { slots, bridges, presets: (0, 2), events: (1, 4) });
    if rng.chance(70) {
        let motors = rng.within(1..=station.bridges);
        station.set_supply(motors);
    }
    station
}

fn head_of(station: &Station) -> Head {
    head::read(&mut lines(&station.bytes())).expect("the station's head is good")
}

#[test]
fn plans_against_every_placement() {
    let heads: Vec<Head> = (0..6_000).map(|seed| head_of(&tiny(seed))).collect();
    let refused = heads.iter().filter(|head| try_plans(head)).count();
    println!("{} heads, {refused} refused", heads.len());
    assert!(refused > 50);
}

/// The frames that a station's calls are tried on: its plan, and a table that no text need have left.
fn frames(rng: &mut Rng, head: &Head, clock: usize) -> Vec<Frame> {
    let resumed = |table: &Table| Frame::resume(head, table, clock, head.hold).expect("a well-formed table");
    let planned = Frame::plan(head).ok().map(|(frame, _)| resumed(frame.table()));
    planned.into_iter().chain(table(rng, head).as_ref().map(resumed)).collect()
}

#[test]
fn calls_against_every_placement() {
    let (mut rng, mut refused, mut evicting, mut calls) = (Rng::new(6), 0, 0, 0);
    for seed in 0..6_000 {
        let station = tiny(seed);
        let head = head_of(&station);
        let clock = if rng.chance(70) { 0 } else { rng.within(1..=head.slots + 1) };
        for mut frame in frames(&mut rng, &head, clock) {
            for line in lines(&station.bytes()).skip(head.lines as usize) {
                // Three jobs at most: more would take too long.
                let Some(Form::Call(Some(call))) = line.form else {
                    continue;
                };
                if call.jobs().len() <= 3 {
                    let answer = try_call(&head, clock, &mut frame, &call);
                    calls += 1;
                    refused += usize::from(answer == Err(Refusal::CallInfeasible));
                    evicting += usize::from(matches!(answer, Ok(Answer::Taken(1..))));
                }
            }
        }
    }
    println!("{calls} calls, {refused} refused, {evicting} evicting");
    assert!(refused > 1_000 && evicting > 500);
}
