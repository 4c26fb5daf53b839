//! Long sheets of admissions for the library call, of which many are refused and many don't fit.

use super::draft::Draft;
use super::lives::{job, retire_some, Deadlines};
use super::machines;
use super::refused;
use super::tables;
use crate::planner::frames::Frame;

/// The character of a sheet.
struct Offers {
    deadlines: Deadlines,
    /// Jobs ask for up to so many hundredths of a processor.
    weight: u64,
    /// One line in so many offers a job that fills the machine, or is beyond it.
    heavy: u64,
    /// One line in so many retires some jobs.
    retire: u64,
}

/// Family l.
pub fn offers(draft: &mut Draft) {
    if draft.random.one_in(8) {
        for _ in 0..draft.random.between(1, 3) {
            refused::of_number(draft, 11);
        }
    }
    let machine = match draft.random.below(3) {
        0 => machines::small(&mut draft.random),
        _ => machines::valid(&mut draft.random),
    };
    draft.put(&machine);
    let m = u64::from(draft.machine().processors);
    let full = draft.random.one_in(4);
    let offers = Offers {
        deadlines: Deadlines::any(&mut draft.random),
        weight: if full { (m * 100 / 64).max(1) } else { draft.random.pick(&[10, 50, 100]) },
        heavy: draft.random.pick(&[2, 4, 8]),
        retire: if full { 60 } else { draft.random.pick(&[6, 12, 30]) },
    };
    let lines = if full { draft.random.between(80, 130) } else { draft.random.between(5, 60) };
    offers.draw(draft, lines);
    if draft.book.jobs().len() == 64 {
        for number in [4, 13, 15, 15, 5, 16] {
            refused::of_number(draft, number);
        }
        retire_some(draft, &mut Vec::new());
        refused::of_number(draft, 17);
    }
}

impl Offers {
    fn draw(mut self, draft: &mut Draft, lines: u64) {
        for _ in 0..lines {
            let step = draft.random.below(40);
            if draft.random.one_in(self.retire) {
                retire_some(draft, &mut Vec::new());
            } else if draft.random.one_in(self.heavy) {
                let frame = at_the_limit(draft);
                draft.put(&frame);
            } else if step < 3 {
                let number = draft.random.pick(&[3, 4, 5, 12, 13, 13, 14, 15, 16, 16]);
                refused::of_number(draft, number);
            } else if step == 3 {
                draft.want();
            } else if step == 4 {
                let levels = draft.machine().levels as usize;
                let table = tables::convex(&mut draft.random, levels);
                draft.put(&Frame::Power(table));
            } else {
                let id = refused::new_id(draft);
                let frame = job(draft, id, &mut self.deadlines, self.weight);
                draft.put(&frame);
            }
        }
    }
}

/// All free work, one tick more or less; a job that just fits a processor or just doesn't; or one that is far beyond it.
fn at_the_limit(draft: &mut Draft) -> Frame {
    let id = refused::new_id(draft);
    let jobs = draft.book.jobs();
    let deadline = match draft.random.below(4) {
        0 | 1 if draft.cycle() <= 65_535 => draft.cycle(),
        2 if !jobs.is_empty() => u64::from(draft.random.pick(&jobs).deadline),
        _ => draft.random.pick(&[1, 2, 3, 10]),
    };
    let free = refused::free_work(draft);
    let cost = match draft.random.below(8) {
        0 | 1 if deadline == draft.cycle() => free,
        2 if deadline == draft.cycle() => free + 1,
        3 => deadline,
        4 | 5 => deadline + 1,
        6 => 65_535,
        _ => draft.random.between(1, 65_535),
    };
    draft.job(id, cost.clamp(1, 65_535), deadline)
}
