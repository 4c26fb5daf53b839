//! The host's call: lines as the desk reads them, plan and slack lines passed over, an end at the first refused line, then one
//! plan frame.

use super::astray::Astray;
use super::book::Book;
use super::desk::{note_accepted, note_length, note_refusal, too_long, LONGEST_SHEET};
use super::frames::{frame_of, lines, Frame};
use super::refusal::{Refusal, MALFORMED, NO_MACHINE, NO_ROOM};
use crate::facts::{Facts, Mark};

/// What a sheet comes to before the page is looked at.
pub enum Outcome {
    /// The frame of the plan filed next, with its 0A.
    Frame(Vec<u8>),
    /// The first refused line; line 0 stands for the sheet as a whole.
    Refused { line: u32, refusal: Refusal },
    /// No line is refused and no machine is open.
    NoMachine,
}

pub fn outcome(sheet: &[u8], astray: Option<Astray>, facts: &mut Facts) -> Outcome {
    note_length(sheet, facts);
    if too_long(sheet, astray) {
        facts.refusals[usize::from(MALFORMED)] += 1;
        return Outcome::Refused { line: 0, refusal: MALFORMED };
    }
    let mut book = Book::new(astray);
    for (line, number) in lines(sheet, astray).iter().zip(1u32..) {
        let taken = match frame_of(line, astray, facts) {
            None => Err(MALFORMED),
            Some(Frame::AdmitWithDeadline { .. }) if astray == Some(Astray::Kind06UnknownToHost) => Err(MALFORMED),
            Some(Frame::AdmitWithDeadline { .. }) if astray == Some(Astray::Kind06PassedOver) => Ok(()),
            Some(Frame::Plan) if astray != Some(Astray::PlanLineRefused) => {
                facts.mark_if(book.machine().is_none(), Mark::PlanPassedOver);
                Ok(())
            }
            Some(Frame::Slack) if astray != Some(Astray::SlackLineRefused) => {
                facts.mark(if book.machine().is_none() { Mark::SlackPassedOverEarly } else { Mark::SlackPassedOver });
                Ok(())
            }
            Some(frame) => book.take(&frame, facts),
        };
        if let Err(refusal) = taken {
            note_refusal(refusal, number, facts);
            let line = number - u32::from(astray == Some(Astray::LinesFromZero));
            return Outcome::Refused { line, refusal };
        }
        note_accepted(line, facts);
    }
    facts.mark_if(sheet.len() == LONGEST_SHEET, Mark::Longest);
    let slack_at_end = sheet.ends_with(b"\n07\n");
    facts.mark_if(slack_at_end && book.machine().is_some(), Mark::SlackAtEnd);
    let filed = match astray {
        Some(Astray::SlackFiled) if slack_at_end => book.slack(facts),
        _ => book.plan(facts),
    };
    match filed {
        Ok(frame) => Outcome::Frame(frame),
        Err(_) => Outcome::NoMachine,
    }
}

/// The reply of the call, which writes into the page only where it succeeds.
pub fn reply(outcome: &Outcome, page: &mut [u8], place: usize, astray: Option<Astray>, facts: &mut Facts) -> Refusal {
    match outcome {
        Outcome::Refused { refusal, .. } => *refusal,
        Outcome::NoMachine if astray == Some(Astray::RoomBeforeMachine) && page.len() < 27 => NO_ROOM,
        Outcome::NoMachine => {
            facts.mark(Mark::NoMachineAtEnd);
            NO_MACHINE
        }
        Outcome::Frame(frame) => {
            let done = match astray {
                Some(Astray::PlaceIgnored) => write(frame, page, 0),
                Some(Astray::NoRoomForLineEnd) => write(&frame[..frame.len() - 1], page, place),
                _ => write(frame, page, place),
            };
            facts.mark(if done { Mark::Filed } else { Mark::NoRoom });
            if done {
                0
            } else {
                NO_ROOM
            }
        }
    }
}

/// Writes a frame into the page from the place on; without room the page stays.
pub fn write(frame: &[u8], page: &mut [u8], place: usize) -> bool {
    match page.get_mut(place..).and_then(|rest| rest.get_mut(..frame.len())) {
        Some(room) => {
            room.copy_from_slice(frame);
            true
        }
        None => false,
    }
}
