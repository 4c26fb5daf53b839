//! A sheet in the making. The book of the second planner follows it, so that a maker knows what the next line would meet.

use super::refused;
use super::Side;
use crate::facts::Facts;
use crate::planner::book::Book;
use crate::planner::capacity::hyperperiod;
use crate::planner::frames::{frame_of, Frame, Line};
use crate::planner::machine::Machine;
use crate::random::Random;

#[derive(Clone, Copy)]
enum Case {
    Upper,
    Lower,
    Mixed,
}

/// The frames by which a sheet admits its jobs.
#[derive(Clone, Copy)]
enum Admissions {
    By03,
    By06,
    ByBoth,
}

pub struct Draft {
    pub random: Random,
    pub side: Side,
    /// The number of the sheet in its family, for makers that go through a list in turn.
    pub index: usize,
    pub book: Book,
    bytes: Vec<u8>,
    case: Case,
    admissions: Admissions,
    // What the book meets here does not count; the comparison counts it.
    unused: Box<Facts>,
}

impl Draft {
    pub fn new(mut random: Random, side: Side, index: usize) -> Self {
        let case = random.pick(&[Case::Upper, Case::Upper, Case::Lower, Case::Mixed]);
        let both = Admissions::ByBoth;
        let admissions = random.pick(&[Admissions::By03, Admissions::By06, both, both]);
        let unused = Box::new(Facts::new());
        Draft { random, side, index, book: Book::new(None), bytes: Vec::new(), case, admissions, unused }
    }

    pub fn into_sheet(self) -> Vec<u8> {
        self.bytes
    }

    pub fn length(&self) -> usize {
        self.bytes.len()
    }

    /// Whether lines after a refused one are read too.
    pub fn goes_on(&self) -> bool {
        self.side != Side::Host
    }

    /// The machine on the book; makers ask only after one was opened.
    pub fn machine(&self) -> Machine {
        self.book.machine().expect("the maker has opened a machine")
    }

    pub fn cycle(&self) -> u64 {
        hyperperiod(&self.book.jobs()) as u64
    }

    /// Adds the frame if the book accepts it.
    pub fn offer(&mut self, frame: &Frame) -> bool {
        let accepted = self.book.take(frame, &mut self.unused).is_ok();
        if accepted {
            let text = self.text(frame);
            self.raw(&text);
            self.raw(b"\n");
        }
        accepted
    }

    /// Adds the frame, whether the book accepts it or not.
    pub fn put(&mut self, frame: &Frame) {
        let _ = self.book.take(frame, &mut self.unused);
        let text = self.text(frame);
        self.raw(&text);
        self.raw(b"\n");
    }

    /// Adds a line with this text; the book follows if it is a frame after all.
    pub fn line(&mut self, text: &[u8]) {
        let line = Line { text, closed: true };
        if let Some(frame) = frame_of(&line, None, &mut self.unused) {
            let _ = self.book.take(&frame, &mut self.unused);
        }
        self.raw(text);
        self.raw(b"\n");
    }

    /// Adds bytes as they are.
    pub fn raw(&mut self, bytes: &[u8]) {
        self.bytes.extend_from_slice(bytes);
    }

    /// Whether the sheet has frames 06.
    pub fn has_deadlines(&self) -> bool {
        !matches!(self.admissions, Admissions::By03)
    }

    /// A job with this cost that is due so many ticks after its period begins.
    pub fn job(&mut self, id: u64, cost: u64, deadline: u64) -> Frame {
        match self.admissions {
            Admissions::By03 => admission(id, cost, deadline),
            Admissions::By06 => due_within(&mut self.random, id, cost, deadline),
            Admissions::ByBoth => either(&mut self.random, id, cost, deadline),
        }
    }

    pub fn admit(&mut self, id: u64, cost: u64, deadline: u64) -> bool {
        let frame = self.job(id, cost, deadline);
        self.offer(&frame)
    }

    /// Lines after which a reader of the desk's output learns most: refused ones, then a plan. The host's call would end there.
    pub fn unsettle(&mut self) {
        if !self.goes_on() {
            if self.random.one_in(6) {
                self.want();
            }
            return;
        }
        for _ in 0..self.random.below(3) {
            refused::any(self);
        }
        if self.random.one_in(2) {
            self.want();
        }
    }

    /// A plan wanted, or its slack, or both in either order.
    pub fn want(&mut self) {
        let wanted: &[Frame] = match self.random.below(5) {
            0 => &[Frame::Plan],
            1 => &[Frame::Slack],
            2 => &[Frame::Plan, Frame::Slack],
            3 => &[Frame::Slack, Frame::Plan],
            _ => &[Frame::Plan, Frame::Slack, Frame::Slack],
        };
        for frame in wanted {
            self.put(frame);
        }
    }

    /// The end of a sheet: for the host a refused line now and then, for the desk refused lines, a plan, and often
    /// its slack.
    pub fn finish(&mut self) {
        if self.goes_on() {
            for _ in 0..self.random.between(1, 4) {
                refused::any(self);
            }
            self.put(&Frame::Plan);
            if self.random.one_in(2) {
                self.put(&Frame::Slack);
            }
        } else if self.random.one_in(7) {
            refused::any(self);
            self.want();
        } else if self.random.one_in(7) {
            self.want();
        }
    }

    /// The digits of a frame, in the sheet's letter case.
    pub fn text(&mut self, frame: &Frame) -> Vec<u8> {
        self.digits(&bytes_of(frame))
    }

    pub fn digits(&mut self, bytes: &[u8]) -> Vec<u8> {
        let mut text = Vec::with_capacity(bytes.len() * 2);
        for byte in bytes {
            for value in [byte >> 4, byte & 15] {
                let upper = b"0123456789ABCDEF"[usize::from(value)];
                let lower = match self.case {
                    Case::Upper => false,
                    Case::Lower => true,
                    Case::Mixed => self.random.one_in(2),
                };
                text.push(if lower { upper.to_ascii_lowercase() } else { upper });
            }
        }
        text
    }
}

/// Frame 03.
pub fn admission(id: u64, cost: u64, period: u64) -> Frame {
    Frame::Admit { id: id as u32, cost: cost as u32, period: period as u32 }
}

/// Frame 06.
pub fn with_deadline(id: u64, cost: u64, period: u64, deadline: u64) -> Frame {
    Frame::AdmitWithDeadline { id: id as u32, cost: cost as u32, period: period as u32, deadline: deadline as u32 }
}

/// Frame 06 with this deadline and any period from it on.
pub fn due_within(random: &mut Random, id: u64, cost: u64, deadline: u64) -> Frame {
    let period = random.between(deadline, deadline.max(65_535));
    let period = random.pick(&[deadline, deadline + 1, 2 * deadline, 65_535, period]);
    with_deadline(id, cost, period.clamp(deadline, deadline.max(65_535)), deadline)
}

/// The same, or frame 03 with this deadline as its period.
pub fn either(random: &mut Random, id: u64, cost: u64, deadline: u64) -> Frame {
    if random.one_in(2) {
        admission(id, cost, deadline)
    } else {
        due_within(random, id, cost, deadline)
    }
}

/// The bytes of a frame, high byte first; numbers beyond their field lose their high bytes.
pub fn bytes_of(frame: &Frame) -> Vec<u8> {
    let two = |number: u32| (number as u16).to_be_bytes();
    match frame {
        Frame::Machine { m, l, b, d } => [&[1, *m as u8, *l as u8][..], &two(*b), &two(*d)].concat(),
        Frame::Power(values) => {
            let mut bytes = vec![2];
            bytes.extend(values.iter().flat_map(|value| value.to_be_bytes()));
            bytes
        }
        Frame::Admit { id, cost, period } => [&[3][..], &two(*id), &two(*cost), &two(*period)].concat(),
        Frame::AdmitWithDeadline { id, cost, period, deadline } => {
            [&[6][..], &two(*id), &two(*cost), &two(*period), &two(*deadline)].concat()
        }
        Frame::Retire { id } => [&[4][..], &two(*id)].concat(),
        Frame::Plan => vec![5],
        Frame::Slack => vec![7],
    }
}
