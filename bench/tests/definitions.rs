//! Small frames against the definitions themselves: feasible means that a placement exists, grants are tried from
//! the highest down, evicted cells are found by trying every set, and each slot goes to the first of a sorted list. Slow
//! and plain on purpose.

use bench::frame::{Answer, Frame, Table};
use bench::head::{self, Head};
use bench::refusal::Refusal;
use bench::text::{lines, Call, Form};
use bench::texts::station::{Size, Station};
use bench::texts::tables::table;
use bench::texts::{self, rng::Rng};

/// Whether tasks of these needs can be placed in different slots each: by augmenting paths, task by task.
fn feasible(needs: &[usize], bridges: &[usize]) -> bool {
    let mut placed = vec![vec![false; bridges.len()]; needs.len()];
    needs.iter().enumerate().all(|(task, &need)| (0..need).all(|_| add(&mut placed, bridges, task)))
}

/// One more slot for a task; others may move to make way.
fn add(placed: &mut Vec<Vec<bool>>, bridges: &[usize], task: usize) -> bool {
    fn reach(placed: &mut Vec<Vec<bool>>, bridges: &[usize], task: usize, seen: &mut Vec<bool>) -> bool {
        for slot in 0..bridges.len() {
            if placed[task][slot] || seen[slot] {
                continue;
            }
            seen[slot] = true;
            let here: Vec<usize> = (0..placed.len()).filter(|&other| placed[other][slot]).collect();
            let mover =
                here.iter().copied().find(|&other| here.len() == bridges[slot] && reach(placed, bridges, other, seen));
            if here.len() < bridges[slot] || mover.is_some() {
                mover.into_iter().for_each(|other| placed[other][slot] = false);
                placed[task][slot] = true;
                return true;
            }
        }
        false
    }
    reach(placed, bridges, task, &mut vec![false; bridges.len()])
}

/// The motors that the supply feeds at a time; without one there is a motor for each of the most bridges.
fn motors(head: &Head) -> usize {
    head.supply.map_or(8, usize::from)
}

/// The free number of a slot: the smaller of its empty cells and the motors less the cells held by presets and calls.
fn free(row: &[u16], motors: usize) -> usize {
    let empty = row.iter().filter(|&&cell| cell == 0).count();
    let held = row.iter().filter(|&&cell| cell >> 8 >= 2).count();
    empty.min(motors - held)
}

/// The cells of the head's frame with nothing placed.
fn unplanned(head: &Head) -> Vec<Vec<u16>> {
    let busy = |slot: usize| (0..head.bridges).map(|b| if head.busy[b] >> slot & 1 == 1 { 256 } else { 0 }).collect();
    (0..head.slots).map(busy).collect()
}

/// The grants by their definition.
fn grants(head: &Head) -> Option<Vec<usize>> {
    let free: Vec<usize> = unplanned(head).iter().map(|row| free(row, motors(head))).collect();
    let mut needs: Vec<usize> = head.presets.iter().map(|preset| usize::from(preset.mandatory)).collect();
    if !feasible(&needs, &free) {
        return None;
    }
    let mut grants = vec![0; needs.len()];
    for place in head.ranking() {
        let mandatory = needs[place];
        grants[place] = (0..=usize::from(head.presets[place].optional)).rev().find(|grant| {
            needs[place] = mandatory + grant;
            feasible(&needs, &free)
        })?;
    }
    Some(grants)
}

/// Whether a slot, which counts from 0 in these tests, is above the clock, which counts slots from 1: a call uses no other.
fn above(clock: usize, slot: usize) -> bool {
    let number = slot + 1;
    number > clock
}

/// Slot and content of the optional cells above the clock, in eviction order.
fn candidates(head: &Head, frame: &Frame, clock: usize) -> Vec<(usize, u16)> {
    let mut cells = Vec::new();
    for &place in head.ranking().iter().rev() {
        let content = 3 * 256 + u16::from(head.presets[place].number);
        let has = |slot: &usize| above(clock, *slot) && frame.row(*slot).contains(&content);
        cells.extend((0..head.slots).rev().filter(has).map(|slot| (slot, content)));
    }
    cells
}

/// Of the smallest sets with which the call is feasible, each a list in eviction order, the first; by trying all.
fn evicted(head: &Head, frame: &Frame, clock: usize, lengths: &[usize]) -> Option<Vec<(usize, u16)>> {
    let cells = candidates(head, frame, clock);
    let mut sets: Vec<Vec<usize>> =
        (0..1_usize << cells.len()).map(|set| (0..cells.len()).filter(|cell| set >> cell & 1 == 1).collect()).collect();
    sets.sort_by_key(|set| (set.len(), set.clone()));
    let enough = |set: &Vec<usize>| {
        let set: Vec<(usize, u16)> = set.iter().map(|&cell| cells[cell]).collect();
        let rows = without(rows(frame), &set);
        let free = |slot: usize| if above(clock, slot) { free(&rows[slot], motors(head)) } else { 0 };
        feasible(lengths, &(0..head.slots).map(free).collect::<Vec<_>>())
    };
    sets.into_iter().find(enough).map(|set| set.iter().map(|&cell| cells[cell]).collect())
}

/// The rows with these cells made empty.
fn without(mut rows: Vec<Vec<u16>>, cells: &[(usize, u16)]) -> Vec<Vec<u16>> {
    for &(slot, content) in cells {
        rows[slot].iter_mut().filter(|cell| **cell == content).for_each(|cell| *cell = 0);
    }
    rows
}

/// What the rule goes by beside the cells: the motors, and whether the order of ties is hold.
#[derive(Clone, Copy)]
struct Rule {
    motors: usize,
    hold: bool,
}

/// The rule by its definition: slot by slot, the largest remaining times, as many as the free number says, take the lowest empty
/// cells in ascending order; of equal ones, under hold, those with a cell in the slot just before come first, then the earlier.
/// `rows` are the slots that may be used, in sequence; `content` says what the next cell of a task holds.
fn fill<'a>(
    rows: impl Iterator<Item = &'a mut Vec<u16>>,
    needs: &[usize],
    rule: Rule,
    mut content: impl FnMut(usize, usize) -> u16,
) {
    let mut left = needs.to_vec();
    let mut before: Vec<usize> = Vec::new();
    for row in rows {
        let mut order: Vec<usize> = (0..left.len()).filter(|&task| left[task] > 0).collect();
        order.sort_by_key(|&task| (usize::MAX - left[task], rule.hold && !before.contains(&task), task));
        order.truncate(free(row, rule.motors));
        order.sort_unstable();
        for &task in &order {
            let bridge = row.iter().position(|&cell| cell == 0).expect("as many as there are empty cells");
            row[bridge] = content(task, needs[task] - left[task]);
            left[task] -= 1;
        }
        before = order;
    }
}

fn rows(frame: &Frame) -> Vec<Vec<u16>> {
    (0..frame.slots()).map(|slot| frame.row(slot).to_vec()).collect()
}

fn lengths(call: &Call) -> Vec<usize> {
    call.jobs().iter().map(|job| usize::from(job.length)).collect()
}

/// The plan's table by the rule, the head's order of ties in force.
fn plan_by_rule(head: &Head, grants: &[usize]) -> Vec<Vec<u16>> {
    let mut rows = unplanned(head);
    let mandatory = |task: usize| usize::from(head.presets[task].mandatory);
    let needs: Vec<usize> = grants.iter().enumerate().map(|(task, grant)| mandatory(task) + grant).collect();
    fill(rows.iter_mut(), &needs, Rule { motors: motors(head), hold: head.hold }, |task, cell| {
        let kind = if cell < mandatory(task) { 2 } else { 3 };
        kind * 256 + u16::from(head.presets[task].number)
    });
    rows
}

/// The call's table by the rule, after the evicted cells are gone.
fn call_by_rule(before: &Frame, clock: usize, rule: Rule, evicted: &[(usize, u16)], call: &Call) -> Vec<Vec<u16>> {
    let mut rows = without(rows(before), evicted);
    let usable = rows.iter_mut().enumerate().filter(|(slot, _)| above(clock, *slot)).map(|(_, row)| row);
    fill(usable, &lengths(call), rule, |job, _| 4 * 256 + u16::from(call.jobs()[job].number));
    rows
}

/// Whether the table after the call is the one before without these cells, and with the jobs in empty ones above the clock. An
/// evicted cell may be empty then.
fn placed(clock: usize, before: &Frame, after: &Frame, evicted: &[(usize, u16)], call: &Call) -> bool {
    let mut count = [0; 256];
    for slot in 0..before.slots() {
        for (&old, &new) in before.row(slot).iter().zip(after.row(slot)) {
            let gone = evicted.contains(&(slot, old));
            if new >> 8 == 4 && old != new {
                assert!(above(clock, slot) && (old == 0 || gone));
                count[usize::from(new & 255)] += 1;
            } else if new != old && !(gone && new == 0) {
                return false;
            }
        }
    }
    call.jobs().iter().all(|job| count[usize::from(job.number)] == job.length)
}

/// Sets of more cells than this are too many to be tried.
const MOST_CELLS: usize = 11;

/// Calls held against the definition.
#[derive(Default)]
struct Seen {
    refused: usize,
    /// By the number of evicted cells.
    accepted: [usize; MOST_CELLS + 1],
    /// Plans and calls under hold whose table would be another under place.
    held: usize,
    /// Plans and calls whose table would be another if there were a motor for each bridge.
    capped: usize,
    /// Calls that would be answered or placed otherwise if they could use the clock's own slot.
    too_late: usize,
    /// Evicted cells that end empty.
    left_empty: usize,
}

/// The clock and the order of ties in force, kept from the lines themselves and not taken from the planner under test.
struct Kept {
    slots: usize,
    clock: usize,
    hold: bool,
}

impl Kept {
    fn start(head: &Head) -> Self {
        Kept { slots: head.slots, clock: 0, hold: head.hold }
    }

    /// What a clock line is answered: outside 0 to S + 1 it meets 2, and after that, below the present clock, 6.
    fn clock_answer(&self, t: usize) -> Result<Answer, Refusal> {
        match t {
            _ if t > self.slots + 1 => Err(Refusal::OutOfLimits),
            _ if t < self.clock => Err(Refusal::ClockBack),
            _ => Ok(Answer::Now(t)),
        }
    }

    /// A clock that is not refused, and every tie.
    fn keep(&mut self, form: Option<Form>, answer: Result<Answer, Refusal>) {
        match form {
            Some(Form::Clock(t)) => {
                assert_eq!(answer, self.clock_answer(usize::from(t)));
                self.clock = answer.map_or(self.clock, |_| usize::from(t));
            }
            Some(Form::Tie { hold }) => {
                assert_eq!(answer, Ok(Answer::Tie { hold }));
                self.hold = hold;
            }
            _ => {}
        }
    }
}

/// Follows one text event by event.
fn follow(text: &[u8], seen: &mut Seen) {
    let mut lines = lines(text);
    let head = head::read(&mut lines).expect("the station's head is good");
    let planned = Frame::plan(&head);
    let expected = grants(&head);
    assert_eq!(planned.is_ok(), expected.is_some());
    let (Ok((mut frame, granted)), Some(expected)) = (planned, expected) else {
        return;
    };
    assert!(granted.iter().map(|&grant| usize::from(grant)).take(expected.len()).eq(expected.iter().copied()));
    assert_eq!(rows(&frame), plan_by_rule(&head, &expected));
    seen.held += usize::from(rows(&frame) != plan_by_rule(&Head { hold: false, ..head.clone() }, &expected));
    seen.capped += usize::from(rows(&frame) != plan_by_rule(&Head { supply: None, ..head.clone() }, &expected));
    let mut kept = Kept::start(&head);
    for line in lines {
        let before = frame.clone();
        let answer = frame.event(line.form);
        kept.keep(line.form, answer);
        match line.form {
            Some(Form::Call(Some(call))) => {
                follow_call(&head, &kept, &call, Step { before: &before, answer, after: &frame }, seen);
            }
            _ => assert_eq!(frame.table(), before.table()),
        }
        assert_eq!(Frame::resume(&head, frame.table(), kept.clock, kept.hold).as_ref(), Ok(&frame));
        assert!(answer.is_ok() || frame == before);
    }
}

/// What one event finds, answers and leaves.
struct Step<'a> {
    before: &'a Frame,
    answer: Result<Answer, Refusal>,
    after: &'a Frame,
}

/// Holds a call that is taken or finds no place against the definitions, unless there are too many sets of cells to be tried.
fn follow_call(head: &Head, kept: &Kept, call: &Call, step: Step, seen: &mut Seen) {
    let Step { before, answer, after } = step;
    let tried = matches!(answer, Ok(_) | Err(Refusal::CallInfeasible));
    if !tried || candidates(head, before, kept.clock).len() > MOST_CELLS {
        return;
    }
    let cells = evicted(head, before, kept.clock, &lengths(call));
    assert_eq!(answer.ok(), cells.as_ref().map(|cells| Answer::Taken(cells.len() as u32)));
    seen.too_late += usize::from(too_late(head, kept, call, before, after));
    let Some(cells) = cells else {
        seen.refused += 1;
        return;
    };
    seen.accepted[cells.len()] += 1;
    assert!(placed(kept.clock, before, after, &cells, call));
    let by_rule = |motors, hold| call_by_rule(before, kept.clock, Rule { motors, hold }, &cells, call);
    let motors = motors(head);
    assert_eq!(rows(after), by_rule(motors, kept.hold));
    seen.held += usize::from(rows(after) != by_rule(motors, false));
    seen.capped += usize::from(rows(after) != by_rule(8, kept.hold));
    seen.left_empty += left_empty(before, after);
}

/// Whether the call would leave another table if the clock's own slot were above the clock. A refused one leaves the table.
fn too_late(head: &Head, kept: &Kept, call: &Call, before: &Frame, after: &Frame) -> bool {
    let Some(clock) = kept.clock.checked_sub(1) else {
        return false;
    };
    let rule = Rule { motors: motors(head), hold: kept.hold };
    let cells = evicted(head, before, clock, &lengths(call));
    cells.is_some_and(|cells| call_by_rule(before, clock, rule, &cells, call) != rows(after))
}

/// The optional cells that are empty now.
fn left_empty(before: &Frame, after: &Frame) -> usize {
    let cells = (0..before.slots()).flat_map(|slot| before.row(slot).iter().zip(after.row(slot)));
    cells.filter(|&(&old, &new)| old >> 8 == 3 && new == 0).count()
}

#[test]
fn small_frames_follow_the_definitions() {
    let size = Size { slots: (1, 6), bridges: (1, 4), presets: (0, 5), events: (0, 8) };
    let mut seen = Seen::default();
    for seed in 0..10_000 {
        follow(&Station::new(&mut Rng::new(seed), size).bytes(), &mut seen);
    }
    let Seen { refused, accepted, held, capped, too_late, left_empty } = seen;
    println!("refused {refused}, accepted by evicted cells {accepted:?}, {held} otherwise by the order of ties");
    println!("{capped} otherwise by the supply, {too_late} otherwise with the clock's own slot");
    println!("{left_empty} evicted cells end empty");
    assert!(refused > 1_000 && accepted[..5].iter().all(|&calls| calls > 100) && held > 300 && capped > 500);
    assert!(too_late > 1_000);
    // A plan takes the lowest bridges of a slot, so that jobs, which do so too, fill the evicted ones first.
    assert_eq!(left_empty, 0);
}

/// Follows calls on a table that no text need have left.
fn follow_lent(rng: &mut Rng, station: &Station, seen: &mut Seen) {
    let head = head::read(&mut lines(&station.bytes())).expect("the station's head is good");
    let Some(table) = table(rng, &head) else {
        return;
    };
    let clock = if rng.chance(70) { 0 } else { rng.within(1..=head.slots + 1) };
    let kept = Kept { clock, hold: rng.chance(50), ..Kept::start(&head) };
    let mut frame = resumed(&head, &table, &kept);
    for event in station.events.iter().filter(|event| event.starts_with("(call")) {
        let line = lines(format!("{event}\n").as_bytes()).next().expect("a line");
        let before = frame.clone();
        let answer = frame.event(line.form);
        if let Some(Form::Call(Some(call))) = line.form {
            follow_call(&head, &kept, &call, Step { before: &before, answer, after: &frame }, seen);
        }
        assert_eq!(resumed(&head, frame.table(), &kept), frame);
        assert!(answer.is_ok() || frame == before);
    }
}

fn resumed(head: &Head, table: &Table, kept: &Kept) -> Frame {
    Frame::resume(head, table, kept.clock, kept.hold).expect("a well-formed table")
}

#[test]
fn lent_tables_follow_the_definitions() {
    let size = Size { slots: (1, 5), bridges: (2, 4), presets: (0, 4), events: (1, 5) };
    let (mut rng, mut seen) = (Rng::new(5), Seen::default());
    for seed in 0..15_000 {
        let mut station = Station::new(&mut Rng::new(seed), size);
        if rng.chance(70) {
            let motors = rng.within(1..=station.bridges);
            station.set_supply(motors);
        }
        follow_lent(&mut rng, &station, &mut seen);
    }
    let Seen { refused, accepted, held, capped, too_late, left_empty } = seen;
    println!("refused {refused}, accepted by evicted cells {accepted:?}, {held} otherwise by the order of ties");
    println!("{capped} otherwise by the supply, {too_late} otherwise with the clock's own slot");
    println!("{left_empty} evicted cells end empty");
    assert!(refused > 1_000 && accepted[..4].iter().all(|&calls| calls > 100) && capped > 500 && left_empty > 500);
    assert!(too_late > 1_000);
}

/// The optional cells that are gone: of every one its slot and content.
fn gone(before: &Frame, after: &Frame) -> Vec<(usize, u16)> {
    let cells = (0..before.slots()).flat_map(|slot| before.row(slot).iter().map(move |&cell| (slot, cell)));
    cells.filter(|&(slot, cell)| cell >> 8 == 3 && !after.row(slot).contains(&cell)).collect()
}

/// Follows the accepted events of one text, the evicted cells being taken from the table; yields how many plans and calls
/// under hold would be placed otherwise under place.
fn follow_rule(text: &[u8]) -> usize {
    let mut lines = lines(text);
    let Ok(head) = head::read(&mut lines) else {
        return 0;
    };
    let Ok((mut frame, granted)) = Frame::plan(&head) else {
        return 0;
    };
    let grants: Vec<usize> = granted[..head.presets.len()].iter().map(|&grant| usize::from(grant)).collect();
    assert_eq!(rows(&frame), plan_by_rule(&head, &grants));
    let mut held = usize::from(rows(&frame) != plan_by_rule(&Head { hold: false, ..head.clone() }, &grants));
    let mut kept = Kept::start(&head);
    for line in lines {
        let before = frame.clone();
        let answer = frame.event(line.form);
        kept.keep(line.form, answer);
        if let (Some(Form::Call(Some(call))), Ok(_)) = (line.form, answer) {
            let cells = gone(&before, &frame);
            assert_eq!(answer, Ok(Answer::Taken(cells.len() as u32)));
            let by_rule = |hold| call_by_rule(&before, kept.clock, Rule { motors: motors(&head), hold }, &cells, &call);
            assert_eq!(rows(&frame), by_rule(kept.hold));
            held += usize::from(rows(&frame) != by_rule(false));
        }
    }
    held
}

#[test]
fn frames_of_all_sizes_follow_the_rule() {
    let held: usize = (0..40_000).map(|seed| follow_rule(&texts::text(seed).bytes)).sum();
    println!("{held} plans and calls otherwise by the order of ties");
    assert!(held > 5_000);
}

#[test]
fn a_table_at_fault_is_not_resumed() {
    let text = b"(frame 3 2)\n(busy 2 (2 2))\n(preset 7 0 1 2)\n(call (9 1))\n";
    let mut lines = lines(text);
    let head = head::read(&mut lines).expect("a good head");
    let (mut frame, _) = Frame::plan(&head).expect("a feasible head");
    lines.for_each(|line| assert!(frame.event(line.form).is_ok()));
    let table = *frame.table();
    assert!(Frame::resume(&head, &table, 0, false).is_ok());
    assert!(Frame::resume(&head, &table, 4, true).is_ok());
    assert!(Frame::resume(&head, &table, 5, false).is_err());
    // Cells: m7 c9 / o7 - / o7 0.
    for (cell, content) in [
        (0, 0),
        (0, 3 * 256 + 7),
        (1, 4 * 256 + 7),
        (1, 4 * 256),
        (1, 2 * 256 + 7),
        (1, 1),
        (1, 256),
        (1, 257),
        (2, 256),
        (2, 2 * 256 + 7),
        (3, 0),
        (3, 4 * 256 + 9),
        (4, 2 * 256 + 7),
        (5, 3 * 256 + 7),
        (5, 3 * 256 + 8),
        (5, 5 * 256),
        (5, 9),
    ] {
        let mut changed = table;
        changed[cell] = content;
        assert!(Frame::resume(&head, &changed, 0, false).is_err(), "{cell} {content}");
    }
}
