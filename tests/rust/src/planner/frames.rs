//! Lines of hexadecimal and the frames in them.

use super::astray::Astray;
use super::capacity::Job;
use crate::facts::{Facts, Mark, LENGTHS};

pub enum Frame {
    Machine {
        m: u32,
        l: u32,
        b: u32,
        d: u32,
    },
    Power(Vec<u32>),
    /// Frame 03, whose deadline is the period's end.
    Admit {
        id: u32,
        cost: u32,
        period: u32,
    },
    /// Frame 06.
    AdmitWithDeadline {
        id: u32,
        cost: u32,
        period: u32,
        deadline: u32,
    },
    Retire {
        id: u32,
    },
    Plan,
    Slack,
}

/// The kinds that are read.
pub const KINDS: [u8; 7] = [1, 2, 3, 4, 5, 6, 7];

impl Frame {
    /// The job of an admission.
    pub fn job(&self, astray: Option<Astray>) -> Option<Job> {
        match *self {
            Frame::Admit { id, cost, period } => {
                let deadline = match astray {
                    Some(Astray::PlainDeadlineZero) => 0,
                    Some(Astray::PlainDeadlineCost) => cost,
                    _ => period,
                };
                Some(Job { id, cost, period, deadline, by_06: false })
            }
            Frame::AdmitWithDeadline { id, cost, period, deadline } => {
                Some(misread(Job { id, cost, period, deadline, by_06: true }, astray))
            }
            _ => None,
        }
    }
}

/// The job of frame 06, which a wrong planner takes for another one.
fn misread(job: Job, astray: Option<Astray>) -> Job {
    let Job { cost, period, deadline, .. } = job;
    match astray {
        Some(Astray::Kind06AsKind03) => Job { deadline: period, ..job },
        Some(Astray::DeadlineBeforePeriod) => Job { period: deadline, deadline: period, ..job },
        Some(Astray::DeadlineBeforeCost) => Job { cost: deadline, deadline: cost, ..job },
        Some(Astray::DeadlineCut8) => Job { deadline: deadline % 256, ..job },
        Some(Astray::DeadlineLowByteFirst) => Job { deadline: u32::from((deadline as u16).swap_bytes()), ..job },
        Some(Astray::DeadlineCutToPeriod) => Job { deadline: deadline.min(period), ..job },
        Some(Astray::DeadlineZeroAsPeriod) if deadline == 0 => Job { deadline: period, ..job },
        Some(Astray::DeadlineZeroAsOne) if deadline == 0 => Job { deadline: 1, ..job },
        _ => job,
    }
}

pub struct Line<'a> {
    pub text: &'a [u8],
    pub closed: bool,
}

/// A line runs to its 0A or to the end of the sheet; after a last 0A no line follows.
pub fn lines(sheet: &[u8], astray: Option<Astray>) -> Vec<Line<'_>> {
    let mut list = Vec::new();
    let mut rest = sheet;
    while !rest.is_empty() {
        match rest.iter().position(|&byte| byte == b'\n') {
            Some(end) => {
                list.push(Line { text: &rest[..end], closed: true });
                rest = &rest[end + 1..];
            }
            None => {
                list.push(Line { text: rest, closed: false });
                rest = &[];
            }
        }
    }
    if astray == Some(Astray::EmptyLineSkipped) {
        list.retain(|line| !line.text.is_empty());
    }
    if astray == Some(Astray::LastLineEmpty) && sheet.last() == Some(&b'\n') {
        list.push(Line { text: &[], closed: false });
    }
    list
}

/// The frame of a line, or nothing where the line is malformed.
pub fn frame_of(line: &Line, astray: Option<Astray>, facts: &mut Facts) -> Option<Frame> {
    if !line.closed {
        facts.mark(Mark::LineUnclosed);
        facts.mark_if(line.text == b"07", Mark::SlackUnclosed);
        facts.mark_if(line.text.starts_with(b"06") && line.text.len() == 18, Mark::DeadlineUnclosed);
        if astray != Some(Astray::UnclosedAccepted) {
            return None;
        }
    }
    let mut text = line.text;
    if astray == Some(Astray::CarriageReturnDropped) {
        text = text.strip_suffix(b"\r").unwrap_or(text);
    }
    let bytes = bytes_of(text, astray, facts)?;
    let (&kind, rest) = bytes.split_first()?;
    let frame = match astray {
        Some(Astray::SlackLineMalformed) if kind == 0x07 => None,
        Some(Astray::SlackLineLonger) if kind == 0x07 => Some(Frame::Slack),
        Some(Astray::Kind06Unknown) if kind == 0x06 => None,
        // The period's end stands in for a deadline that is missing; what comes too much is passed over.
        Some(Astray::Kind06Shorter) if kind == 0x06 && rest.len() == 6 => frame_of_bytes(0x03, rest),
        Some(Astray::Kind06Longer) if kind == 0x06 && rest.len() > 8 => frame_of_bytes(kind, &rest[..8]),
        Some(Astray::Kind03Longer) if kind == 0x03 && rest.len() == 8 => frame_of_bytes(kind, &rest[..6]),
        Some(Astray::Kind03AsKind06) if kind == 0x03 && rest.len() == 8 => frame_of_bytes(0x06, rest),
        _ => frame_of_bytes(kind, rest),
    };
    note_shape(kind, rest.len(), frame.is_some(), facts);
    frame
}

fn bytes_of(text: &[u8], astray: Option<Astray>, facts: &mut Facts) -> Option<Vec<u8>> {
    if text.is_empty() {
        facts.mark(Mark::LineEmpty);
        return None;
    }
    let mut digits = Vec::with_capacity(text.len());
    for (position, &byte) in text.iter().enumerate() {
        match digit(byte, astray) {
            Some(value) => digits.push(value),
            None => {
                facts.wrong_digits[position % 2][usize::from(byte)] += 1;
                return None;
            }
        }
    }
    if digits.len() % 2 != 0 {
        facts.mark(Mark::LineOdd);
        return None;
    }
    Some(digits.chunks(2).map(|pair| pair[0] * 16 + pair[1]).collect())
}

fn digit(byte: u8, astray: Option<Astray>) -> Option<u8> {
    match byte {
        b'0'..=b'9' => Some(byte - b'0'),
        b'A'..=b'F' => Some(byte - b'A' + 10),
        b'a'..=b'f' if astray == Some(Astray::LowerCaseRefused) => None,
        b'a'..=b'f' => Some(byte - b'a' + 10),
        _ => None,
    }
}

fn frame_of_bytes(kind: u8, rest: &[u8]) -> Option<Frame> {
    match (kind, rest.len()) {
        (0x01, 6) => Some(Frame::Machine {
            m: number(&rest[0..1]),
            l: number(&rest[1..2]),
            b: number(&rest[2..4]),
            d: number(&rest[4..6]),
        }),
        (0x02, 4..=128) if rest.len() % 4 == 0 => Some(Frame::Power(rest.chunks(4).map(number).collect())),
        (0x03, 6) => {
            Some(Frame::Admit { id: number(&rest[0..2]), cost: number(&rest[2..4]), period: number(&rest[4..6]) })
        }
        (0x04, 2) => Some(Frame::Retire { id: number(rest) }),
        (0x05, 0) => Some(Frame::Plan),
        (0x06, 8) => Some(Frame::AdmitWithDeadline {
            id: number(&rest[0..2]),
            cost: number(&rest[2..4]),
            period: number(&rest[4..6]),
            deadline: number(&rest[6..8]),
        }),
        (0x07, 0) => Some(Frame::Slack),
        _ => None,
    }
}

// High byte first.
fn number(bytes: &[u8]) -> u32 {
    bytes.iter().fold(0, |value, &byte| value * 256 + u32::from(byte))
}

fn note_shape(kind: u8, length: usize, known: bool, facts: &mut Facts) {
    if !KINDS.contains(&kind) {
        facts.unknown_kinds[usize::from(kind)] += u64::from(!known);
    } else if length < LENGTHS {
        facts.lengths[usize::from(kind)][length] += 1;
    }
}

/// A frame as it is filed: upper case, closed by 0A.
pub fn filed(bytes: &[u8]) -> Vec<u8> {
    let mut text: Vec<u8> = bytes.iter().flat_map(|byte| format!("{byte:02X}").into_bytes()).collect();
    text.push(b'\n');
    text
}

/// Frame 8E with its 0A.
pub fn refusal_frame(line: u32, number: u8) -> Vec<u8> {
    let mut bytes = vec![0x8E];
    bytes.extend(line.to_be_bytes());
    bytes.push(number);
    filed(&bytes)
}
