//! The conditions under which a job is turned down: document 01's order for frame 03, which is that of frame 06 too, and the wrong
//! orders.

use super::astray::Astray;
use super::refusal::{Refusal, CYCLE_TOO_LONG, ID_HELD, JOB_NUMBERS, NO_MACHINE, NO_PLAN, PLACES_FULL};

#[derive(Clone, Copy, PartialEq, Eq)]
pub enum Condition {
    NoMachine,
    /// The id, the cost or the period is out of range.
    Numbers,
    /// The deadline is out of range, which is 4 as well; a wrong planner may look at it at another time.
    Deadline,
    Held,
    Full,
    Cycle,
    NoPlan,
}

use Condition::{Cycle, Deadline, Full, Held, NoMachine, NoPlan, Numbers};

/// 11, 4, 13, 15, 16, 17.
const ORDER: [Condition; 7] = [NoMachine, Numbers, Deadline, Held, Full, Cycle, NoPlan];

impl Condition {
    pub fn number(self) -> Refusal {
        match self {
            NoMachine => NO_MACHINE,
            Numbers | Deadline => JOB_NUMBERS,
            Held => ID_HELD,
            Full => PLACES_FULL,
            Cycle => CYCLE_TOO_LONG,
            NoPlan => NO_PLAN,
        }
    }

    /// Those that come after this one in the right order.
    pub fn later(self) -> impl Iterator<Item = Condition> {
        ORDER.into_iter().skip_while(move |&other| other != self).skip(1)
    }
}

pub fn order(astray: Option<Astray>, by_06: bool) -> [Condition; 7] {
    let mut order = ORDER;
    if let Some((moved, next)) = astray.and_then(|astray| wrong_place(astray, by_06)) {
        let place = |wanted: Condition| ORDER.iter().position(|&condition| condition == wanted);
        let from = place(moved).unwrap_or(0);
        let to = next.and_then(place).unwrap_or(ORDER.len());
        if from < to {
            order[from..to].rotate_left(1);
        } else {
            order[to..=from].rotate_right(1);
        }
    }
    order
}

/// The condition that a wrong planner looks at right before another one, or at the end.
fn wrong_place(astray: Astray, by_06: bool) -> Option<(Condition, Option<Condition>)> {
    let place = match astray {
        Astray::RangeBeforeMachine => (NoMachine, Some(Held)),
        Astray::FullBeforeHeld => (Full, Some(Held)),
        Astray::CycleBeforeFull => (Cycle, Some(Full)),
        Astray::HeavyBeforeCycle => (NoPlan, Some(Cycle)),
        _ if !by_06 => return None,
        Astray::DeadlineBeforeMachine => (Deadline, Some(NoMachine)),
        Astray::DeadlineAfterHeld => (Deadline, Some(Full)),
        Astray::DeadlineAfterFull => (Deadline, Some(Cycle)),
        Astray::DeadlineAfterCycle => (Deadline, Some(NoPlan)),
        Astray::DeadlineAfterPlan => (Deadline, None),
        Astray::FullBeforeHeld06 => (Full, Some(Held)),
        Astray::CycleBeforeFull06 => (Cycle, Some(Full)),
        Astray::HeavyBeforeCycle06 => (NoPlan, Some(Cycle)),
        Astray::HeldLast06 => (Held, None),
        Astray::FullLast06 => (Full, None),
        _ => return None,
    };
    Some(place)
}
