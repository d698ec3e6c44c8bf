//! Stations whose lines all have their form and, in the head, their limits and places. Their events may still be
//! refused: a call need not be feasible, a clock may go back.

use super::rng::Rng;

pub const TEXT_LIMIT: usize = 32_768;

pub struct Station {
    pub slots: usize,
    pub bridges: usize,
    /// How many motors may run in a slot: one for each bridge, or what the supply feeds if that is less.
    pub motors: usize,
    /// Where the tie line stands in `head`, or would stand: after the frame line and the supply line, if there is one.
    pub tie: usize,
    /// Where the busy lines start in `head`: after these and the tie line, if there is one.
    pub busy: usize,
    /// Where the presets' lines start in `head`.
    pub presets: usize,
    pub head: Vec<String>,
    pub events: Vec<String>,
    /// Numbers that no preset has, in random sequence; calls take them from the end.
    pub unused: Vec<usize>,
    /// How many bridges of each slot the busy lines that were drawn take.
    pub taken: Vec<usize>,
    /// The clock that the events so far should have reached.
    pub clock: usize,
    /// Of a hundred events, how many are ties.
    pub ties: usize,
}

/// Ranges to draw a station's sizes from.
#[derive(Clone, Copy)]
pub struct Size {
    pub slots: (usize, usize),
    pub bridges: (usize, usize),
    pub presets: (usize, usize),
    pub events: (usize, usize),
}

pub const TINY: Size = Size { slots: (1, 3), bridges: (1, 3), presets: (0, 3), events: (0, 6) };
pub const SMALL: Size = Size { slots: (1, 8), bridges: (1, 4), presets: (0, 6), events: (0, 12) };
pub const MEDIUM: Size = Size { slots: (4, 24), bridges: (1, 8), presets: (0, 16), events: (0, 40) };
pub const LARGE: Size = Size { slots: (25, 64), bridges: (3, 8), presets: (4, 32), events: (0, 90) };
pub const LARGEST: Size = Size { slots: (64, 64), bridges: (8, 8), presets: (32, 32), events: (0, 120) };

/// How a station's calls and clocks are drawn.
#[derive(Clone, Copy)]
pub struct Style {
    /// Of a hundred events, how many are clocks.
    clocks: usize,
    ties: usize,
    most_jobs: usize,
    longest: usize,
    /// Of a hundred job numbers, how many are drawn without regard to those used.
    careless: usize,
}

impl Station {
    /// A head, and as many events as the size says.
    pub fn new(rng: &mut Rng, size: Size) -> Self {
        let mut station = Station::head_only(rng, size);
        let style = station.style(rng);
        for _ in 0..draw(rng, size.events) {
            station.add_event(rng, style);
        }
        station
    }

    pub fn head_only(rng: &mut Rng, size: Size) -> Self {
        let (slots, bridges) = (draw(rng, size.slots), draw(rng, size.bridges));
        let mut unused: Vec<usize> = (1..=255).collect();
        rng.shuffle(&mut unused);
        let head = vec![format!("(frame {slots} {bridges})")];
        let (events, taken) = (Vec::new(), vec![0; slots]);
        let (motors, tie, busy, presets, clock, ties) = (bridges, 1, 1, 1, 0, 0);
        let mut station =
            Station { slots, bridges, motors, tie, busy, presets, head, events, unused, taken, clock, ties };
        let mut aside = rng.aside();
        station.add_ties(&mut aside);
        station.add_supply(&mut aside);
        station.add_busy(rng);
        station.presets = station.head.len();
        let presets = draw(rng, size.presets);
        station.add_presets(rng, presets);
        station
    }

    pub fn bytes(&self) -> Vec<u8> {
        let mut bytes = Vec::with_capacity(self.length());
        for line in self.head.iter().chain(&self.events) {
            bytes.extend_from_slice(line.as_bytes());
            bytes.push(b'\n');
        }
        bytes
    }

    pub fn length(&self) -> usize {
        self.head.iter().chain(&self.events).map(|line| line.len() + 1).sum()
    }

    /// Adds events until no other would keep the text below `bytes` bytes.
    pub fn fill(&mut self, rng: &mut Rng, bytes: usize) {
        let style = self.style(rng);
        let mut length = self.length();
        loop {
            self.add_event(rng, style);
            length += self.events.last().map_or(0, |line| line.len() + 1);
            if length > bytes {
                self.events.pop();
                return;
            }
        }
    }

    pub fn style(&self, rng: &mut Rng) -> Style {
        // Short jobs are often taken, long ones often refused; both are wanted.
        let longest = self.slots.div_ceil(*rng.pick(&[1, 2, 4, 8, 16]));
        Style {
            clocks: *rng.pick(&[5, 20, 50]),
            ties: self.ties,
            most_jobs: *rng.pick(&[1, 1, 2, 3, 5, 8]),
            longest,
            careless: *rng.pick(&[0, 5, 40]),
        }
    }

    pub fn add_event(&mut self, rng: &mut Rng, style: Style) {
        let event = match rng.below(100) {
            draw if draw < style.clocks => self.clock_line(rng),
            draw if draw < style.clocks + style.ties => self.tie_event(rng),
            _ => self.call_line(rng, style),
        };
        self.events.push(event);
    }

    /// A tie line; in the head's place for it it is the head's, and only hold has its place there.
    fn tie_event(&self, rng: &mut Rng) -> String {
        if self.head.len() == self.tie && self.events.is_empty() {
            return "(tie hold)".into();
        }
        tie_line(rng)
    }

    pub fn clock_line(&mut self, rng: &mut Rng) -> String {
        let clock = match rng.below(20) {
            0 => rng.within(0..=self.slots + 2),
            1 => self.clock.saturating_sub(1),
            2..=5 => self.clock,
            _ => self.clock + 1 + rng.below(1 + self.slots / 8),
        };
        // A clock far past the end is for the kinds that try limits.
        let clock = clock.min(self.slots + 2);
        if clock <= self.slots + 1 {
            self.clock = self.clock.max(clock);
        }
        format!("(clock {clock})")
    }

    fn call_line(&mut self, rng: &mut Rng, style: Style) -> String {
        let jobs: Vec<String> = (0..rng.within(1..=style.most_jobs))
            .map(|_| {
                let number = self.job_number(rng, style.careless);
                let length = if rng.chance(2) { rng.within(1..=64) } else { rng.within(1..=style.longest) };
                format!("({number} {length})")
            })
            .collect();
        format!("(call {})", jobs.join(" "))
    }

    /// A number, mostly one that was not used before while there are such.
    pub fn job_number(&mut self, rng: &mut Rng, careless: usize) -> usize {
        if rng.chance(careless) {
            return rng.within(1..=255);
        }
        self.unused.pop().unwrap_or_else(|| rng.within(1..=255))
    }

    /// An order of ties in the head, among the events, in both or nowhere.
    fn add_ties(&mut self, rng: &mut Rng) {
        if rng.chance(50) {
            self.hold();
        }
        self.ties = *rng.pick(&[0, 0, 5, 20]);
    }

    /// Puts `(tie hold)` into a head that has no tie line yet.
    pub fn hold(&mut self) {
        self.head.insert(self.tie, "(tie hold)".into());
        self.busy += 1;
        self.presets += 1;
    }

    /// Now and then a supply; mostly one that feeds fewer motors than there are bridges.
    fn add_supply(&mut self, rng: &mut Rng) {
        if rng.chance(30) {
            let motors = any_supply(rng, self.bridges);
            self.set_supply(motors);
        }
    }

    /// Puts a supply into the head, in place of the one that it has.
    pub fn set_supply(&mut self, motors: usize) {
        let supplies = self.tie - 1;
        self.head.splice(1..self.tie, [format!("(supply {motors})")]);
        self.tie = 2;
        self.busy += 1 - supplies;
        self.presets += 1 - supplies;
        self.motors = motors.min(self.bridges);
    }

    /// How many cells presets and jobs can hold.
    pub fn free(&self) -> usize {
        self.taken.iter().map(|taken| self.motors.min(self.bridges - taken)).sum()
    }

    fn add_busy(&mut self, rng: &mut Rng) {
        let percent = *rng.pick(&[0, 0, 30, 70, 100]);
        for bridge in 1..=self.bridges {
            if rng.chance(percent) {
                let stretches = stretches(rng, self.slots);
                stretches.iter().for_each(|&(from, to)| self.taken[from - 1..to].iter_mut().for_each(|n| *n += 1));
                let list: Vec<String> = stretches.iter().map(|(from, to)| format!("({from} {to})")).collect();
                self.head.push(format!("(busy {bridge} {})", list.join(" ")));
            }
        }
    }

    /// Adds presets whose mandatory slots come near some part of the free cells, now and then beyond it.
    fn add_presets(&mut self, rng: &mut Rng, count: usize) {
        let tenths = rng.within(0..=9);
        let average = self.free() * tenths / 10 / count.max(1);
        let priorities = rng.within(0..=9);
        let optional = if rng.chance(50) { self.slots } else { self.slots.div_ceil(4) };
        for _ in 0..count {
            let number = self.unused.pop().expect("presets come before jobs");
            let mandatory = rng.within(0..=2 * average).min(self.slots);
            let priority = rng.within(0..=priorities);
            let optional = rng.within(0..=optional);
            self.head.push(format!("(preset {number} {priority} {mandatory} {optional})"));
        }
    }
}

/// Hold somewhat more often: place is what a frame has by itself.
pub fn tie_line(rng: &mut Rng) -> String {
    (*rng.pick(&["(tie hold)", "(tie hold)", "(tie place)"])).into()
}

/// A number of motors that a supply can feed, mostly not above so many bridges.
pub fn any_supply(rng: &mut Rng, bridges: usize) -> usize {
    let most = if rng.chance(80) { bridges } else { 8 };
    rng.within(1..=most)
}

fn draw(rng: &mut Rng, (from, to): (usize, usize)) -> usize {
    rng.within(from..=to)
}

/// At least one stretch within the slots, with a gap of one slot at least between two.
fn stretches(rng: &mut Rng, slots: usize) -> Vec<(usize, usize)> {
    let longest = if rng.chance(70) { 2 } else { slots };
    let gap = 1 + rng.below(slots);
    let mut stretches = Vec::new();
    let mut least = 1;
    while least <= slots {
        let from = (least + rng.below(gap)).min(slots);
        let to = (from + rng.below(longest)).min(slots);
        stretches.push((from, to));
        least = to + 2;
        if rng.chance(15) {
            break;
        }
    }
    stretches
}
