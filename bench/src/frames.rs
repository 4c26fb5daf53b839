//! Reading: a sheet's lines, and the frame that a line holds.

use crate::hexadecimal::number;
use crate::load::Job;
use std::io::BufRead;
use std::iter;

/// Frame 06 with its 0A.
const SHORT_LINE: usize = 19;

/// The numbers of a machine frame, not yet judged.
#[derive(Clone, Copy)]
pub struct MachineNumbers {
    pub processors: u8,
    pub levels: u8,
    pub lowest: u16,
    pub step: u16,
}

/// The values of a power frame, not yet judged.
pub struct Values {
    values: [u32; 32],
    count: usize,
}

impl Values {
    pub fn as_slice(&self) -> &[u32] {
        &self.values[..self.count]
    }
}

pub enum Frame {
    Machine(MachineNumbers),
    Power(Values),
    Admit(Job),
    Retire(u16),
    PlanWanted,
    SlackWanted,
}

/// The lines of a sheet, each with its 0A; the last one may lack it.
pub fn lines(mut sheet: &[u8]) -> impl Iterator<Item = &[u8]> {
    iter::from_fn(move || {
        let (line, rest) = sheet.split_at(line_length(sheet));
        sheet = rest;
        (!line.is_empty()).then_some(line)
    })
}

/// The length of the first line with its 0A. Most lines are short; a call of the library's search pays from some 20
/// bytes on.
fn line_length(sheet: &[u8]) -> usize {
    let (short, mut rest) = sheet.split_at(sheet.len().min(SHORT_LINE));
    match short.iter().position(|&byte| byte == b'\n') {
        Some(end) => end + 1,
        // Reading from memory never fails.
        None => short.len() + rest.skip_until(b'\n').unwrap_or(0),
    }
}

/// The frame of a line, or None where the line is malformed. Every kind that is read has the high digit 0.
pub fn read(line: &[u8]) -> Option<Frame> {
    let [b'0', kind, digits @ .., b'\n'] = line else { return None };
    match kind {
        b'1' => machine(digits),
        b'2' => power(digits),
        b'3' => admit(digits),
        b'4' => Some(Frame::Retire(number::<4>(digits.try_into().ok()?)? as u16)),
        b'5' => digits.is_empty().then_some(Frame::PlanWanted),
        b'6' => admit_with_deadline(digits),
        b'7' => digits.is_empty().then_some(Frame::SlackWanted),
        _ => None,
    }
}

fn machine(digits: &[u8]) -> Option<Frame> {
    let all = number::<12>(digits.try_into().ok()?)?;
    let (processors, levels) = ((all >> 40) as u8, (all >> 32) as u8);
    Some(Frame::Machine(MachineNumbers { processors, levels, lowest: (all >> 16) as u16, step: all as u16 }))
}

fn admit(digits: &[u8]) -> Option<Frame> {
    let all = number::<12>(digits.try_into().ok()?)?;
    let (id, cost, period) = ((all >> 32) as u16, (all >> 16) as u16, all as u16);
    Some(Frame::Admit(Job { id, cost, period, deadline: period }))
}

fn admit_with_deadline(digits: &[u8]) -> Option<Frame> {
    let all = number::<16>(digits.try_into().ok()?)?;
    let (id, cost) = ((all >> 48) as u16, (all >> 32) as u16);
    Some(Frame::Admit(Job { id, cost, period: (all >> 16) as u16, deadline: all as u16 }))
}

fn power(digits: &[u8]) -> Option<Frame> {
    let (texts, rest) = digits.as_chunks::<8>();
    if !rest.is_empty() || !(1..=32).contains(&texts.len()) {
        return None;
    }
    let mut values = [0; 32];
    for (value, text) in values.iter_mut().zip(texts) {
        *value = number(text)? as u32;
    }
    Some(Frame::Power(Values { values, count: texts.len() }))
}
