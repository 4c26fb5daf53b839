//! The sweep over all families, on the host's call, the desk program, the library call and the order of the jobs, and the search
//! for wrong planners.

use crate::compare::{desk, host, library, second, turns, Difference, Relation, WITHOUT_ROOM, WITH_ROOM};
use crate::facts::Facts;
use crate::planner::astray::Astray;
use crate::planner::library::printed;
use crate::planner::refusal::NO_PLAN;
use crate::random::Random;
use crate::sheets::{Family, Side, FAMILIES};
use crate::shrink::{shown, shrink, LINE_END};
use crate::tally::Tally;
use std::path::Path;

/// One comparison, with all that it takes to make it again.
struct Trial<'a> {
    side: Side,
    program: &'a Path,
    relations: Vec<Relation>,
    seed: u64,
    astray: Option<Astray>,
}

impl<'a> Trial<'a> {
    /// A page with room for every sheet, and one without for every fourth.
    fn new(side: Side, program: &'a Path, seed: u64, index: usize, astray: Option<Astray>) -> Self {
        let mut random = Random::for_sheet(seed, 1, index);
        let mut relations = vec![random.pick(&WITH_ROOM)];
        if random.one_in(4) {
            relations.push(random.pick(&WITHOUT_ROOM));
        }
        Trial { side, program, relations, seed: random.next(), astray }
    }

    fn difference(&self, sheet: &[u8], facts: &mut Facts) -> Option<Difference> {
        match self.side {
            Side::Host => host(sheet, &self.relations, self.seed, self.astray, facts),
            Side::Desk => desk(self.program, sheet, self.astray, facts),
            Side::Library => library(self.program, sheet, self.astray, facts),
            Side::Turns => turns(self.program, sheet, self.astray, facts),
        }
    }

    fn differs(&self, sheet: &[u8]) -> bool {
        self.difference(sheet, &mut Facts::new()).is_some()
    }

    /// The smallest sheet found on which the two still differ. A true difference is worth a long search; a wrong planner only has
    /// to be found.
    fn shrunk(&self, sheet: &[u8]) -> Vec<u8> {
        match (self.astray, self.side) {
            (None, Side::Host) => shrink(sheet, LINE_END, 200_000, &mut |sheet| self.differs(sheet)),
            (None, _) => shrink(sheet, LINE_END, 20_000, &mut |sheet| self.differs(sheet)),
            (Some(_), Side::Host) => shrink(sheet, LINE_END, 2_000, &mut |sheet| self.differs(sheet)),
            (Some(astray), side) => {
                // A process for each probe is dear: the right planner stands in for the product, which has the last word.
                let apart = &mut |sheet: &[u8]| second(side, sheet, Some(astray)) != second(side, sheet, None);
                let small = shrink(sheet, LINE_END, 600, apart);
                if self.differs(&small) {
                    small
                } else {
                    sheet.to_vec()
                }
            }
        }
    }
}

/// All sheets of one family on one side; stops at the first difference. Returns the number of sheets compared.
pub fn family(
    family: &Family,
    side: Side,
    program: &Path,
    seeds: &[(usize, u64)],
    shares: usize,
    facts: &mut Facts,
    tally: &mut Tally,
) -> usize {
    let share = family.count(side).div_ceil(shares);
    let mut compared = 0;
    for &(order, seed) in seeds {
        for index in order * share..(order + 1) * share {
            let sheet = family.sheet(seed, side, index);
            let trial = Trial::new(side, program, seed, index, None);
            let found = trial.difference(&sheet, facts);
            tally.count(found.is_none());
            compared += 1;
            if found.is_some() {
                report(family, seed, index, &trial, &sheet);
                return compared;
            }
        }
    }
    compared
}

fn report(family: &Family, seed: u64, index: usize, trial: &Trial, sheet: &[u8]) {
    let small = trial.shrunk(sheet);
    let side = trial.side.name();
    println!("DIFFERENCE at the {side}, seed {seed:#x}, family {}, sheet {index}", family.letter);
    println!("shrunk to {} bytes:\n{}", small.len(), shown(&small));
    if let Some(difference) = trial.difference(&small, &mut Facts::new()) {
        println!("second planner: {}", difference.second);
        println!("product: {}", difference.product);
    }
}

/// Whether the second planner, gone astray, contradicts itself: the library call and the admission that follows it.
pub fn contradicts_itself(astray: Astray, seed: u64) -> bool {
    // Jobs offered that don't fit.
    let Some(family) = FAMILIES.iter().find(|family| family.letter == 'l') else {
        return false;
    };
    (0..200).any(|index| {
        let mut facts = Facts::new();
        printed(&family.sheet(seed, Side::Library, index), Some(astray), &mut facts);
        facts.contradictions > 0 || facts.asked[usize::from(NO_PLAN)] > 0
    })
}

/// Looks for a sheet of this side that tells a wrong planner from the product; returns its shrunk form.
pub fn find(astray: Astray, side: Side, program: &Path, seed: u64) -> Option<Vec<u8>> {
    let rounds = if side == Side::Host { 1_000 } else { 200 };
    for index in 0..rounds {
        for family in &FAMILIES {
            // Long sheets are dear; a few of them do.
            if family.count(side) == 0 || (family.letter == 'h' && index >= 48) {
                continue;
            }
            let sheet = family.sheet(seed, side, index);
            let trial = Trial::new(side, program, seed, index, Some(astray));
            if trial.difference(&sheet, &mut Facts::new()).is_some() {
                return Some(trial.shrunk(&sheet));
            }
        }
    }
    None
}
