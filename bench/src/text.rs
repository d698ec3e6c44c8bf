//! The lines of a station text and their forms.
//!
//! A line's form is apart from its values: whether a value is within its limits is asked later, since a line out of
//! its place is refused for that first. So numbers keep only what a limit can see (`ABOVE` stands for all that
//! exceed every limit), and lists keep only whether all of their values are within limits.

use std::iter::Peekable;

pub const TEXT_LIMIT: usize = 32_768;
pub const CALL_JOBS: usize = 8;

/// Stands for every number that exceeds all limits, so that no number is too long to be read.
const ABOVE: u16 = 999;

/// The highest slot number and job length of any frame.
const LONGEST: u16 = 64;

#[derive(Clone, Copy, Debug, Default, PartialEq, Eq)]
pub struct Job {
    pub number: u8,
    pub length: u8,
}

/// One to eight jobs, their values within limits.
#[derive(Clone, Copy, Debug, PartialEq, Eq)]
pub struct Call {
    jobs: [Job; CALL_JOBS],
    count: u8,
}

impl Call {
    /// None if there are no jobs, or more than eight, or a value is outside its limits.
    pub fn new(jobs: &[Job]) -> Option<Self> {
        let mut call = Call { jobs: [Job::default(); CALL_JOBS], count: 0 };
        let all = jobs.iter().all(|job| call.push(u16::from(job.number), u16::from(job.length)));
        (all && call.count > 0).then_some(call)
    }

    pub fn jobs(&self) -> &[Job] {
        &self.jobs[..usize::from(self.count)]
    }

    /// False if the job is the ninth or outside its limits.
    fn push(&mut self, number: u16, length: u16) -> bool {
        let fits = usize::from(self.count) < CALL_JOBS;
        if !fits || !(1..=255).contains(&number) || !(1..=LONGEST).contains(&length) {
            return false;
        }
        self.jobs[usize::from(self.count)] = Job { number: number as u8, length: length as u8 };
        self.count += 1;
        true
    }
}

#[derive(Clone, Copy, Debug, PartialEq, Eq)]
pub enum Form {
    Frame {
        slots: u16,
        bridges: u16,
    },
    /// The slots of all stretches, bit s - 1 for slot s; None if a stretch is outside the limits of every frame.
    Busy {
        bridge: u16,
        slots: Option<u64>,
    },
    Preset {
        number: u16,
        priority: u16,
        mandatory: u16,
        optional: u16,
    },
    Clock(u16),
    /// None if a value is outside its limits or there is a ninth job.
    Call(Option<Call>),
    /// An order of ties: whether it is hold, else place.
    Tie {
        hold: bool,
    },
    /// How many motors the supply feeds at a time.
    Supply(u16),
}

impl Form {
    /// Whether it has an event's form. A tie has, although directly after the frame line, or a supply line there, it is a line
    /// of the head.
    pub fn is_event(&self) -> bool {
        matches!(self, Form::Clock(_) | Form::Call(_) | Form::Tie { .. })
    }
}

/// A line's number, from 1, and its form, if it has one.
#[derive(Clone, Copy, Debug)]
pub struct Line {
    pub number: u32,
    pub form: Option<Form>,
}

/// The lines of a text in sequence. Bytes after the last byte 10 are a line without a form.
#[derive(Clone, Debug)]
pub struct Lines<'a> {
    rest: &'a [u8],
    number: u32,
}

pub fn lines(text: &[u8]) -> Peekable<Lines<'_>> {
    Lines { rest: text, number: 0 }.peekable()
}

impl Iterator for Lines<'_> {
    type Item = Line;

    fn next(&mut self) -> Option<Line> {
        if self.rest.is_empty() {
            return None;
        }
        let mut cursor = Cursor { rest: self.rest };
        let form = cursor.form();
        if form.is_none() {
            // No part of a form holds byte 10, so the cursor has not left its line.
            cursor.skip_line();
        }
        self.rest = cursor.rest;
        self.number += 1;
        Some(Line { number: self.number, form })
    }
}

/// A place in a text; what stands there is taken from the front.
pub(crate) struct Cursor<'a> {
    pub rest: &'a [u8],
}

impl Cursor<'_> {
    /// The form of the line that starts here, its byte 10 included.
    fn form(&mut self) -> Option<Form> {
        self.expect(b"(")?;
        let form = match self.rest.first()? {
            b'f' => self.frame()?,
            b'b' => self.busy()?,
            b'p' => self.preset()?,
            b't' => self.tie()?,
            b's' => self.supply()?,
            _ if self.expect(b"clock ").is_some() => Form::Clock(self.number()?),
            _ => self.call()?,
        };
        self.expect(b")\n")?;
        Some(form)
    }

    fn frame(&mut self) -> Option<Form> {
        self.expect(b"frame ")?;
        let slots = self.number()?;
        let bridges = self.next_number()?;
        Some(Form::Frame { slots, bridges })
    }

    fn preset(&mut self) -> Option<Form> {
        self.expect(b"preset ")?;
        let number = self.number()?;
        let priority = self.next_number()?;
        let mandatory = self.next_number()?;
        let optional = self.next_number()?;
        Some(Form::Preset { number, priority, mandatory, optional })
    }

    fn busy(&mut self) -> Option<Form> {
        self.expect(b"busy ")?;
        let bridge = self.number()?;
        let mut slots = Some(0);
        let mut least = 1;
        self.expect(b" ")?;
        self.pairs(|from, to| {
            let within = least <= from && from <= to && to <= LONGEST;
            slots = slots.filter(|_| within).map(|slots| slots | stretch(from, to));
            // A gap of one slot at least: stretches that touch would be one stretch.
            least = to + 2;
        })?;
        Some(Form::Busy { bridge, slots })
    }

    fn call(&mut self) -> Option<Form> {
        self.expect(b"call ")?;
        let mut call = Call { jobs: [Job::default(); CALL_JOBS], count: 0 };
        let mut within = true;
        self.pairs(|number, length| within &= call.push(number, length))?;
        Some(Form::Call(within.then_some(call)))
    }

    fn tie(&mut self) -> Option<Form> {
        self.expect(b"tie ")?;
        let hold = self.expect(b"hold").is_some();
        if !hold {
            self.expect(b"place")?;
        }
        Some(Form::Tie { hold })
    }

    fn supply(&mut self) -> Option<Form> {
        self.expect(b"supply ")?;
        self.number().map(Form::Supply)
    }

    /// One or more `(x y)`, parted by one blank.
    fn pairs(&mut self, mut each: impl FnMut(u16, u16)) -> Option<()> {
        loop {
            self.expect(b"(")?;
            let first = self.number()?;
            let second = self.next_number()?;
            self.expect(b")")?;
            each(first, second);
            if self.expect(b" ").is_none() {
                return Some(());
            }
        }
    }

    fn next_number(&mut self) -> Option<u16> {
        self.expect(b" ")?;
        self.number()
    }

    pub fn number(&mut self) -> Option<u16> {
        let mut value = self.digit()?;
        // After a leading zero the number has ended; a further digit fails as the byte after it.
        if value > 0 {
            while let Some(digit) = self.digit() {
                value = (10 * value + digit).min(ABOVE);
            }
        }
        Some(value)
    }

    fn digit(&mut self) -> Option<u16> {
        let (byte, rest) = self.rest.split_first()?;
        let digit = byte.wrapping_sub(b'0');
        if digit > 9 {
            return None;
        }
        self.rest = rest;
        Some(u16::from(digit))
    }

    pub fn expect(&mut self, bytes: &[u8]) -> Option<()> {
        self.rest = self.rest.strip_prefix(bytes)?;
        Some(())
    }

    fn skip_line(&mut self) {
        let end = self.rest.iter().position(|&byte| byte == b'\n');
        self.rest = end.map_or(&[], |end| &self.rest[end + 1..]);
    }
}

/// Slots `from` to `to`, both included, 1 <= from <= to <= 64.
pub(crate) fn stretch(from: u16, to: u16) -> u64 {
    u64::MAX >> (64 - (to - from + 1)) << (from - 1)
}
