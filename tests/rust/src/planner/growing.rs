//! Growing the plan, literally as document 01 writes it.

use super::astray::Astray;
use super::capacity::{offered, Needs};
use super::machine::Machine;
use crate::facts::{Facts, Mark};

#[derive(Clone)]
pub struct Grown {
    pub levels: Vec<u32>,
    pub raises: u32,
}

/// For i = 1 to m: while test i fails, raise the slowest of the first i processors. Nothing where no plan passes.
pub fn grow(machine: &Machine, needs: &Needs, astray: Option<Astray>, facts: &mut Facts) -> Option<Grown> {
    let m = machine.processors as usize;
    if let Some(Astray::MeanSpeed | Astray::EveryCoreAtTop) = astray {
        return same_level_everywhere(machine, needs, astray);
    }
    let mut levels = vec![0; m];
    let mut raises = 0;
    for i in 1..=m {
        if astray == Some(Astray::LastTestOnly) && i < m {
            continue;
        }
        let need = needs.of_test(i, m, astray);
        let before = raises;
        let mut given = offered(machine, &levels[..i], needs.cycle);
        while fails(need, given, astray) {
            note_missed(machine, need, given, &levels[..i], needs.early, facts);
            raise_slowest(machine, &mut levels[..i], astray)?;
            raises += 1;
            given += needs.cycle * u128::from(machine.step);
        }
        if astray == Some(Astray::OneRaiseMore) && raises > before {
            raises += u32::from(raise_slowest(machine, &mut levels[..i], astray).is_some());
        }
        let spare = given.saturating_sub(need);
        note_met(spare, raises > before, i, m, facts);
        if needs.early && spare == 0 && raises > before {
            facts.mark(if i == m { Mark::EarlyMetWhole } else { Mark::EarlyMet });
        }
    }
    let most = needs.cycle * u128::from(machine.top()) * m as u128;
    let full = needs.of_test(m, m, None) == most;
    facts.mark_if(full, Mark::FullLoad);
    facts.mark_if(full && needs.early, Mark::EarlyFullLoad);
    raises += u32::from(astray == Some(Astray::RaisesOffByOne));
    Some(Grown { levels, raises })
}

fn fails(need: u128, offered: u128, astray: Option<Astray>) -> bool {
    need > offered || (need == offered && astray == Some(Astray::EqualityFails))
}

// The facts of a test met: exactly, by the raise just made, or with one to spare.
fn note_met(spare: u128, raised: bool, i: usize, m: usize, facts: &mut Facts) {
    match (spare, i == m) {
        (0, false) if raised => {
            facts.met_at[i] += 1;
            facts.mark(Mark::MetExactly);
        }
        (0, true) if raised => facts.mark(Mark::MetExactlyWhole),
        (1, false) => facts.mark(Mark::SpareOne),
        (1, true) => facts.mark(Mark::SpareOneWhole),
        _ => (),
    }
}

// The facts of a test missed. At the top it is missed by at least one tick of work, which is Q in the test's own units.
fn note_missed(machine: &Machine, need: u128, given: u128, levels: &[u32], early: bool, facts: &mut Facts) {
    let whole = levels.len() == machine.processors as usize;
    if need == given + 1 {
        facts.missed_at[levels.len()] += u64::from(!whole);
        facts.mark(if whole { Mark::MissedByOneWhole } else { Mark::MissedByOne });
        facts.mark_if(early, if whole { Mark::EarlyMissedWhole } else { Mark::EarlyMissed });
    }
    if whole && need == given + u128::from(machine.top()) {
        let at_top = levels.iter().all(|&level| level + 1 == machine.levels);
        facts.mark_if(at_top, Mark::FullLoadMissed);
        facts.mark_if(at_top && early, Mark::EarlyFullLoadMissed);
    }
}

/// Raises by one level the slowest, the lowest-numbered among equals. Nothing where all are at the top.
fn raise_slowest(machine: &Machine, levels: &mut [u32], astray: Option<Astray>) -> Option<()> {
    let least = levels.iter().copied().min()?;
    if least + 1 == machine.levels {
        return None;
    }
    let slowest = |level: &u32| *level == least;
    let processor = match astray {
        Some(Astray::HighestOfEquals) => levels.iter().rposition(slowest),
        _ => levels.iter().position(slowest),
    };
    levels[processor?] += 1;
    Some(())
}

// Two wrong planners: one level for all, either the least that holds the sum or the top.
fn same_level_everywhere(machine: &Machine, needs: &Needs, astray: Option<Astray>) -> Option<Grown> {
    let m = machine.processors;
    let need = needs.of_test(m as usize, m as usize, None);
    let holds = |level: &u32| offered(machine, &vec![*level; m as usize], needs.cycle) >= need;
    let mut level = (0..machine.levels).find(holds)?;
    if astray == Some(Astray::EveryCoreAtTop) {
        level = machine.levels - 1;
    }
    Some(Grown { levels: vec![level; m as usize], raises: level * m })
}
