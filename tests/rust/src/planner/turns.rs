//! The jobs held at the end of a sheet in the order in which they are taken, as the product's trial program prints them.

use super::astray::Astray;
use super::book::Book;
use super::capacity::Job;
use super::desk::{self, LONGEST_SHEET};
use super::frames::{frame_of, lines, Frame};
use super::orders;
use super::refusal::MALFORMED;
use super::turns_notes::{note_held, note_retired};
use crate::facts::{Facts, Mark};

/// The longest frame with its 0A: 83 for 32 processors.
const LONGEST_FRAME: usize = 579;

/// All that the trial program prints for this sheet: each id and a blank, then 0, which is no job's id.
pub fn printed(sheet: &[u8], astray: Option<Astray>, facts: &mut Facts) -> Vec<u8> {
    let jobs = held(sheet, astray, facts);
    if astray.is_none() {
        note_held(&jobs, facts);
        facts.beyond_page += u64::from(!fits_one_page(sheet));
    }
    let ids = orders::ids(&jobs, astray).iter().map(|id| format!("{id} ")).collect::<String>();
    format!("{ids}0\n").into_bytes()
}

// The trial program reads no further than one page of frames has room for the longest.
fn fits_one_page(sheet: &[u8]) -> bool {
    desk::printed(sheet, None, &mut Facts::new()).len() <= LONGEST_SHEET - LONGEST_FRAME
}

/// The jobs held at the end, in the order of their admission, which only a wrong planner asks for.
fn held(sheet: &[u8], astray: Option<Astray>, facts: &mut Facts) -> Vec<Job> {
    let mut book = Book::new(astray);
    let mut admitted = Vec::new();
    let mut refused = [false; 18];
    let mut admitted_after = [false; 18];
    let mut last_refused = false;
    for line in lines(sheet, astray) {
        let before = book.jobs();
        let frame = frame_of(&line, astray, facts);
        let taken = frame.as_ref().map_or(Err(MALFORMED), |frame| book.take(frame, facts));
        last_refused = taken.is_err();
        match (taken, frame) {
            (Err(refusal), _) => refused[usize::from(refusal)] = true,
            (_, Some(Frame::Admit { id, .. } | Frame::AdmitWithDeadline { id, .. })) => {
                admitted.push(id);
                admitted_after = refused;
            }
            (_, Some(Frame::Retire { id })) => {
                admitted.retain(|&other| other != id);
                note_retired(&before, id, facts);
            }
            _ => (),
        }
    }
    facts.mark_if(last_refused, Mark::TurnsLastRefused);
    facts.mark_if(book.machine().is_none(), Mark::TurnsNoMachine);
    facts.mark_if(book.machine().is_some() && book.jobs().is_empty(), Mark::TurnsNone);
    for (sheets, after) in facts.admitted_after.iter_mut().zip(admitted_after) {
        *sheets += u64::from(after);
    }
    let mut jobs = book.jobs();
    jobs.sort_by_key(|job| admitted.iter().position(|&id| id == job.id));
    jobs
}
