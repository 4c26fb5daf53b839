//! The sheet desk: reads a sheet line by line, goes on after a refused line, and prints frames 81, 83 and 8E.

use super::astray::Astray;
use super::book::Book;
use super::frames::{frame_of, lines, refusal_frame, Frame, Line};
use super::refusal::{Refusal, MALFORMED};
use crate::facts::{Facts, Mark};

pub const LONGEST_SHEET: usize = 65_536;

/// All that the desk program prints for this sheet.
pub fn printed(sheet: &[u8], astray: Option<Astray>, facts: &mut Facts) -> Vec<u8> {
    note_length(sheet, facts);
    if too_long(sheet, astray) {
        facts.refusals[usize::from(MALFORMED)] += 1;
        return refusal_frame(0, MALFORMED);
    }
    let mut book = Book::new(astray);
    let mut output = Vec::new();
    let mut refused = [0; 18];
    let mut planned_after = [0; 18];
    let mut slack_after = [0; 18];
    let mut before: &[u8] = b"";
    for (line, number) in lines(sheet, astray).iter().zip(1u32..) {
        let reply = reply(&mut book, line, astray, facts);
        note_order(before, line, reply.is_ok(), facts);
        before = if reply.is_ok() { line.text } else { b"" };
        match reply {
            Ok(frame) => {
                if frame.starts_with(b"81") {
                    planned_after = refused;
                } else if frame.starts_with(b"83") {
                    slack_after = refused;
                }
                output.extend(frame);
            }
            Err(refusal) => {
                refused[usize::from(refusal)] += 1;
                note_refusal(refusal, number, facts);
                let shown = number - u32::from(astray == Some(Astray::LinesFromZero));
                output.extend(refusal_frame(shown, refusal));
                if astray == Some(Astray::RefusalEmptiesRoster) {
                    book.forget_jobs();
                }
            }
        }
    }
    note_sheet(sheet, &refused, facts);
    facts.mark_if(planned_after.iter().sum::<u32>() >= 3, Mark::PlanAfterRefusals);
    note_after(&planned_after, &mut facts.plans_after);
    note_after(&slack_after, &mut facts.slacks_after);
    output
}

// The facts of a slack line: refused for want of a machine, or accepted after an accepted line of another kind.
fn note_order(before: &[u8], line: &Line, accepted: bool, facts: &mut Facts) {
    if line.text == b"07" {
        facts.mark_if(!accepted && line.closed, Mark::SlackNoMachine);
        facts.mark_if(accepted && before.starts_with(b"03"), Mark::SlackAfterAdmission);
        facts.mark_if(accepted && before.starts_with(b"06"), Mark::SlackAfterDeadline);
        facts.mark_if(accepted && before.starts_with(b"04"), Mark::SlackAfterRetirement);
        facts.mark_if(accepted && before == b"05", Mark::SlackAfterPlan);
        facts.mark_if(accepted && before == b"07", Mark::SlackTwice);
    }
    facts.mark_if(accepted && line.text == b"05" && before == b"07", Mark::PlanAfterSlack);
    facts.mark_if(accepted && line.text == b"05" && before.starts_with(b"06"), Mark::PlanAfterDeadline);
}

// The facts of a whole sheet.
fn note_sheet(sheet: &[u8], refused: &[u32; 18], facts: &mut Facts) {
    let none = refused.iter().all(|&count| count == 0);
    facts.mark_if(none && sheet.len() == LONGEST_SHEET, Mark::Longest);
}

// The numbers of the refused lines before a sheet's last plan, or before the last slack.
fn note_after(refused: &[u32; 18], sheets: &mut [u64; 18]) {
    for (sheets, &count) in sheets.iter_mut().zip(refused) {
        *sheets += u64::from(count > 0);
    }
}

// What one line prints if it is not refused: nothing for 01 to 04 and for 06, the plan for 05, its slack for 07.
fn reply(book: &mut Book, line: &Line, astray: Option<Astray>, facts: &mut Facts) -> Result<Vec<u8>, Refusal> {
    let frame = frame_of(line, astray, facts).ok_or(MALFORMED)?;
    match frame {
        Frame::Plan => return book.plan(facts),
        Frame::Slack if astray == Some(Astray::SlackBeforeMachine) => return Ok(book.slack(facts).unwrap_or_default()),
        Frame::Slack => {
            let slack = book.slack(facts);
            if astray == Some(Astray::SlackChangesRoster) {
                book.forget_first();
            }
            return slack;
        }
        _ => (),
    }
    book.take(&frame, facts)?;
    note_accepted(line, facts);
    match frame {
        Frame::AdmitWithDeadline { .. } if astray == Some(Astray::Kind06Printed) => book.plan(facts),
        _ => Ok(Vec::new()),
    }
}

pub fn too_long(sheet: &[u8], astray: Option<Astray>) -> bool {
    let longest = match astray {
        Some(Astray::LongSheetRead) => LONGEST_SHEET + 1,
        Some(Astray::FullSheetRefused) => LONGEST_SHEET - 1,
        _ => LONGEST_SHEET,
    };
    sheet.len() > longest
}

pub fn note_length(sheet: &[u8], facts: &mut Facts) {
    facts.mark_if(sheet.is_empty(), Mark::Empty);
    facts.mark_if(sheet.len() == 65_535, Mark::Length65535);
    facts.mark_if(sheet.len() == 65_536, Mark::Length65536);
    facts.mark_if(sheet.len() == 65_537, Mark::Length65537);
}

pub fn note_refusal(refusal: Refusal, line: u32, facts: &mut Facts) {
    facts.refusals[usize::from(refusal)] += 1;
    facts.mark_if(line > 255, Mark::LateLine);
    facts.mark_if(line > 65_535, Mark::LatestLine);
}

pub fn note_accepted(line: &Line, facts: &mut Facts) {
    facts.mark_if(line.text.iter().any(|byte| byte.is_ascii_lowercase()), Mark::LowerCase);
}
