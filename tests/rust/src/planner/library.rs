//! The library call for a job not yet held, asked before every admission of a sheet, as the product's trial program asks it.

use super::astray::Astray;
use super::book::Book;
use super::capacity::Job;
use super::frames::{frame_of, lines};
use super::refusal::{Refusal, NO_PLAN};
use super::slack::Slack;
use crate::facts::{Facts, Mark};

/// The call has so many entries; those after the m-th are 0, and all of them where it is refused.
const ENTRIES: usize = 32;

type Asked = Result<[Slack; ENTRIES], Refusal>;

/// All that the trial program prints for this sheet: a line for every well-formed frame 03 or 06.
pub fn printed(sheet: &[u8], astray: Option<Astray>, facts: &mut Facts) -> Vec<u8> {
    let mut book = Book::new(astray);
    let mut output = Vec::new();
    for line in lines(sheet, astray) {
        let Some(frame) = frame_of(&line, astray, facts) else {
            continue;
        };
        let Some(job) = frame.job(astray) else {
            let _ = book.take(&frame, facts);
            continue;
        };
        let asked = ask(&book, job, astray, facts);
        facts.asked[usize::from(asked.as_ref().err().copied().unwrap_or(0))] += 1;
        output.extend(text(&asked, astray).into_bytes());
        if astray == Some(Astray::AskedJobEntered) && asked.is_ok() {
            book.keep(job);
        }
        let taken = book.take(&frame, facts);
        facts.contradictions += u64::from(contradicts(&asked, taken));
        facts.mark_if(book.jobs().len() == 64, Mark::AskedToHeld64);
    }
    output
}

fn ask(book: &Book, job: Job, astray: Option<Astray>, facts: &mut Facts) -> Asked {
    let slacks = book.slack_with(job, facts)?;
    note_asked(book, &job, &slacks, facts);
    let mut entries = [Slack::default(); ENTRIES];
    if let (Some(Astray::EntriesAfterLast), Some(&last)) = (astray, slacks.last()) {
        entries = [last; ENTRIES];
    }
    entries[..slacks.len()].copy_from_slice(&slacks);
    if astray == Some(Astray::ShortRefused) && slacks.iter().any(|slack| slack.ticks < 0) {
        return Err(NO_PLAN);
    }
    Ok(entries)
}

/// The refusal's number or 0, then the ticks and the remainder of each entry.
fn text(asked: &Asked, astray: Option<Astray>) -> String {
    let none = if astray == Some(Astray::RefusedEntriesSet) { 1 } else { 0 };
    let (number, entries) = match asked {
        Ok(entries) => (0, *entries),
        Err(refusal) => (*refusal, [Slack { ticks: none, remainder: 0 }; ENTRIES]),
    };
    let entry = |slack: &Slack| format!(" {} {}", slack.ticks, slack.remainder);
    format!("{number}{}\n", entries.iter().map(entry).collect::<String>())
}

// A tick is below zero exactly where 17 turns the job down; else the admission and the call have the same reply, and no
// remainder is left at top speed.
fn contradicts(asked: &Asked, taken: Result<(), Refusal>) -> bool {
    match asked {
        Err(refusal) => taken != Err(*refusal),
        Ok(entries) => {
            let short = entries.iter().any(|slack| slack.ticks < 0);
            let rest = entries.iter().any(|slack| slack.remainder != 0);
            rest || taken != if short { Err(NO_PLAN) } else { Ok(()) }
        }
    }
}

fn note_asked(book: &Book, job: &Job, slacks: &[Slack], facts: &mut Facts) {
    let held = book.jobs().len();
    let (whole, first) = slacks.split_last().expect("a machine has a processor");
    let short = |slack: &Slack| slack.ticks < 0;
    let top = book.machine().map_or(0, |machine| machine.top());
    facts.mark_if(first.iter().any(short) && !short(whole), Mark::AskedShortFirst);
    facts.mark_if(!first.iter().any(short) && short(whole), Mark::AskedShortWhole);
    facts.mark_if(first.iter().any(|slack| slack.ticks == 0), Mark::AskedExact);
    facts.mark_if(whole.ticks == 0, Mark::AskedExactWhole);
    facts.mark_if(first.iter().any(|slack| slack.ticks == -1), Mark::AskedMissed);
    facts.mark_if(whole.ticks == -1, Mark::AskedMissedWhole);
    facts.mark_if(whole.ticks < -(1 << 32), Mark::AskedFarShort);
    facts.mark_if(job.cost > job.period, Mark::AskedHeavy);
    facts.mark_if(held == 63, Mark::AskedLastPlace);
    facts.mark_if(held == 0, Mark::AskedFirst);
    facts.mark_if(held + 2 < slacks.len(), Mark::AskedFewJobs);
    facts.mark_if(held > slacks.len(), Mark::AskedManyJobs);
    facts.mark_if(slacks.len() == 1, Mark::AskedOneProcessor);
    facts.mark_if(slacks.len() == 32, Mark::AskedMostProcessors);
    facts.mark_if(top == 256, Mark::AskedTopMost);
    facts.mark_if(top == 1, Mark::AskedTopLeast);
    facts.mark_if(job.by_06 && !job.is_early(), Mark::AskedPeriodEnd);
    if job.is_early() {
        note_early(book, job, slacks, facts);
    }
}

/// The facts of a job with a deadline before its period's end.
fn note_early(book: &Book, job: &Job, slacks: &[Slack], facts: &mut Facts) {
    let (whole, first) = slacks.split_last().expect("a machine has a processor");
    let heavy = job.cost > job.deadline;
    let short = slacks.iter().any(|slack| slack.ticks < 0);
    facts.mark(Mark::AskedEarly);
    facts.mark_if(first.iter().any(|slack| slack.ticks == 0), Mark::AskedEarlyExact);
    facts.mark_if(whole.ticks == 0, Mark::AskedEarlyExactWhole);
    facts.mark_if(first.iter().any(|slack| slack.ticks == -1), Mark::AskedEarlyMissed);
    facts.mark_if(whole.ticks == -1, Mark::AskedEarlyMissedWhole);
    facts.mark_if(heavy && job.cost <= job.period, Mark::AskedEarlyHeavy);
    facts.mark_if(short && !heavy && book.fits(&job.with_whole_period()), Mark::AskedFitsByPeriod);
}
