//! The lines of the output, each ended by byte 10.

use crate::bits::runs;
use crate::frame::{Answer, Frame};
use crate::head::Head;
use crate::refusal::Refusal;

pub struct Listing<'a> {
    pub out: &'a mut Vec<u8>,
}

impl Listing<'_> {
    pub fn granted(&mut self, number: u8, slots: u8) {
        self.form(b"(granted ", &[u32::from(number), u32::from(slots)]);
    }

    pub fn answer(&mut self, line: u32, answer: Result<Answer, Refusal>) {
        match answer {
            Ok(Answer::Now(clock)) => self.form(b"(now ", &[clock as u32]),
            Ok(Answer::Taken(cells)) => self.form(b"(taken ", &[cells]),
            Ok(Answer::Tie { hold }) => self.tie(hold),
            Err(refusal) => self.refused(line, refusal),
        }
    }

    pub fn refused(&mut self, line: u32, refusal: Refusal) {
        self.form(b"(refused ", &[line, u32::from(refusal.number())]);
    }

    pub fn table(&mut self, frame: &Frame) {
        for slot in 0..frame.slots() {
            self.out.extend_from_slice(b"(slot ");
            self.number(slot as u32 + 1);
            frame.row(slot).iter().for_each(|&cell| self.cell(cell));
            self.out.extend_from_slice(b")\n");
        }
    }

    /// A head's one text.
    pub fn head(&mut self, head: &Head) {
        self.form(b"(frame ", &[head.slots as u32, head.bridges as u32]);
        if let Some(motors) = head.supply {
            self.form(b"(supply ", &[u32::from(motors)]);
        }
        if head.hold {
            self.tie(true);
        }
        for (bridge, &busy) in head.busy.iter().enumerate().filter(|(_, &busy)| busy != 0) {
            self.out.extend_from_slice(b"(busy ");
            self.number(bridge as u32 + 1);
            for (first, last) in runs(busy) {
                self.out.extend_from_slice(b" (");
                self.numbers(&[first as u32 + 1, last as u32 + 1], b' ');
                self.out.push(b')');
            }
            self.out.extend_from_slice(b")\n");
        }
        for preset in &head.presets {
            let numbers = [preset.number, preset.priority, preset.mandatory, preset.optional];
            self.form(b"(preset ", &numbers.map(u32::from));
        }
    }

    /// A head's busy stretches as bare rows, by bridge, then by slot.
    pub fn rows(&mut self, head: &Head) {
        for (bridge, &busy) in head.busy.iter().enumerate() {
            for (first, last) in runs(busy) {
                self.numbers(&[bridge as u32 + 1, first as u32 + 1, last as u32 + 1], b',');
                self.out.extend_from_slice(b"\r\n");
            }
        }
    }

    fn tie(&mut self, hold: bool) {
        self.out.extend_from_slice(if hold { b"(tie hold)\n" } else { b"(tie place)\n" });
    }

    fn cell(&mut self, cell: u16) {
        // By kind: empty, busy, mandatory, optional, call.
        let mark = b"0-moc"[usize::from(cell >> 8)];
        self.out.extend_from_slice(&[b' ', mark]);
        if cell >> 8 >= 2 {
            self.number(u32::from(cell & 255));
        }
    }

    fn form(&mut self, word: &[u8], numbers: &[u32]) {
        self.out.extend_from_slice(word);
        self.numbers(numbers, b' ');
        self.out.extend_from_slice(b")\n");
    }

    fn numbers(&mut self, numbers: &[u32], parted_by: u8) {
        for (place, &number) in numbers.iter().enumerate() {
            if place > 0 {
                self.out.push(parted_by);
            }
            self.number(number);
        }
    }

    fn number(&mut self, number: u32) {
        // From the last digit to the first: one append instead of one for each digit.
        let mut digits = [0; 10];
        let mut start = digits.len();
        let mut rest = number;
        loop {
            start -= 1;
            digits[start] = b'0' + (rest % 10) as u8;
            rest /= 10;
            if rest == 0 {
                break;
            }
        }
        self.out.extend_from_slice(&digits[start..]);
    }
}
