//! A second planner, written from document 01 and the requests in 02 alone, compared with the product on random sheets and
//! frequency lists.
//!
//! `second_planner [seed]`: without a seed all fixed seeds are run, and every fact of the coverage table must have been met. The
//! environment names the desk program in STUDIO_DESK, in SLACK_TRIALS the one that asks the library call before every admission,
//! and in TURN_TRIALS the one that takes the jobs held at the end in their order. The last line is 'N passed, M failed'.

#![deny(unsafe_code)]

#[allow(unsafe_code)]
mod archive;
#[forbid(unsafe_code)]
mod brute;
#[forbid(unsafe_code)]
mod brute_slack;
#[forbid(unsafe_code)]
mod compare;
#[forbid(unsafe_code)]
mod coverage;
#[forbid(unsafe_code)]
mod facts;
#[forbid(unsafe_code)]
mod imports;
#[forbid(unsafe_code)]
mod lists;
#[forbid(unsafe_code)]
mod planner;
#[forbid(unsafe_code)]
mod random;
#[forbid(unsafe_code)]
mod sheets;
#[forbid(unsafe_code)]
mod shrink;
#[forbid(unsafe_code)]
mod sweep;
#[forbid(unsafe_code)]
mod tally;
#[forbid(unsafe_code)]
mod trials;

use facts::{Due, Facts, Mark};
use planner::astray::{Astray, ALL};
use planner::refusal::NO_PLAN;
use random::Random;
use sheets::{Side, FAMILIES};
use std::path::{Path, PathBuf};
use std::process::ExitCode;
use std::time::Instant;
use tally::Tally;

/// The fixed seeds. Each one takes its share of every family.
const SEEDS: [u64; 4] = [0x5EED_0001, 0x5EED_0002, 0x5EED_0003, 0x5EED_0004];
const BRUTE_CASES: usize = 40_000;
const SLACK_CASES: usize = 12_000;
const REFUSAL_CALLS: usize = 20_000;
const LEAST_AT_HOST: usize = 100_000;
const LEAST_AT_DESK: usize = 10_000;
const LEAST_AT_LIBRARY: usize = 2_000;
const LEAST_IN_TURNS: usize = 2_000;

/// In bytes: four lines of a job.
const SMALL_SHEET: usize = 60;

/// Wrong planners that the brute force must find without a second planner to compare with.
const FOUND_BY_BRUTE_FORCE: [Astray; 30] = [
    Astray::OrderByCost,
    Astray::RoundedUp,
    Astray::BeyondLeftOut,
    Astray::MeanSpeed,
    Astray::HighestOfEquals,
    Astray::EqualityFails,
    Astray::RaisesOffByOne,
    Astray::OneRaiseMore,
    Astray::LastTestOnly,
    Astray::EveryCoreAtTop,
    Astray::FirstPlanRepeated,
    Astray::LowestPowerLeftOut,
    Astray::Kind06Unknown,
    Astray::Kind06UnknownToHost,
    Astray::Kind06PassedOver,
    Astray::Kind06AsKind03,
    Astray::DeadlineBeforePeriod,
    Astray::DeadlineBeforeCost,
    Astray::PlainDeadlineZero,
    Astray::PlainDeadlineCost,
    Astray::PlainDeadlineOfLast,
    Astray::PeriodEndRefused,
    Astray::CostAboveDeadlineRefused,
    Astray::WorkByPeriod,
    Astray::CycleByPeriods,
    Astray::AllByPeriods,
    Astray::OrderByPeriod,
    Astray::GapAddedToCost,
    Astray::AdmittedByPeriod,
    Astray::PlannedByPeriod,
];

/// The same for the slack.
const SLACK_FOUND_BY_BRUTE_FORCE: [Astray; 21] = [
    Astray::SlackBeyondLeftOut,
    Astray::SlackByCost,
    Astray::SlackNotSummed,
    Astray::SlackAtTop,
    Astray::SlackOfEarlierPlan,
    Astray::SlackOfEarlierJobs,
    Astray::SlackTestsLeftOut,
    Astray::SlackByCycle,
    Astray::SlackByLowest,
    Astray::SlackBy256,
    Astray::SlackUndivided,
    Astray::SlackRoundedUp,
    Astray::SlackRemainderFirst,
    Astray::SlackSwapped,
    Astray::SlackLowByteFirst,
    Astray::AskedWithoutJob,
    Astray::ShortAsZero,
    Astray::WorkByPeriod,
    Astray::CycleByPeriods,
    Astray::SlackByPeriod,
    Astray::AskedByPeriod,
];

/// Wrong library calls that don't go with the admission that follows.
const FOUND_BY_ADMISSION: [Astray; 12] = [
    Astray::SlackBeyondLeftOut,
    Astray::AskedWithoutJob,
    Astray::AskedAtGrownPlan,
    Astray::AskedOldCycle,
    Astray::ShortRefused,
    Astray::ShortAsZero,
    Astray::HeldAccepted,
    Astray::FullAccepted,
    Astray::CycleAccepted,
    Astray::SlackByPeriod,
    Astray::AskedByPeriod,
    Astray::AskedDeadlineUnchecked,
];

/// The product's programs.
pub struct Programs {
    desk: PathBuf,
    library: PathBuf,
    turns: PathBuf,
}

impl Programs {
    fn named() -> Self {
        let named = |name: &str| PathBuf::from(std::env::var_os(name).unwrap_or_default());
        Programs { desk: named("STUDIO_DESK"), library: named("SLACK_TRIALS"), turns: named("TURN_TRIALS") }
    }

    /// The program of a side; the host's call needs none.
    fn of(&self, side: Side) -> &Path {
        match side {
            Side::Host | Side::Desk => &self.desk,
            Side::Library => &self.library,
            Side::Turns => &self.turns,
        }
    }
}

fn main() -> ExitCode {
    let programs = Programs::named();
    let mut tally = Tally::new();
    match seeds_to_run() {
        Ok((seeds, full)) => run(&programs, &seeds, full, &mut tally),
        Err(fault) => tally.check(&fault, false),
    }
    println!("{} passed, {} failed", tally.passed, tally.failed);
    ExitCode::from(u8::from(tally.failed > 0))
}

/// The seeds with their order, and whether the run is a full one.
fn seeds_to_run() -> Result<(Vec<(usize, u64)>, bool), String> {
    let all = || SEEDS.iter().copied().enumerate();
    let Some(given) = std::env::args().nth(1) else {
        return Ok((all().collect(), true));
    };
    let digits = given.trim_start_matches("0x");
    let seed = u64::from_str_radix(digits, 16).map_err(|_| format!("no hexadecimal seed: {given}"))?;
    let order = all().find(|&(_, fixed)| fixed == seed).map_or(0, |(order, _)| order);
    Ok((vec![(order, seed)], false))
}

fn run(programs: &Programs, seeds: &[(usize, u64)], full: bool, tally: &mut Tally) {
    let mut table = coverage::Table::new();
    timed("trials with known results", || trials::run_all(programs, tally));
    for side in Side::ALL {
        timed(side.name(), || {
            let mut facts = Facts::new();
            sweep_side(side, programs.of(side), seeds, full, &mut facts, tally);
            table.of_side(side, &facts);
            if side == Side::Host {
                table.of_pages(side.name(), &facts);
            }
        });
    }
    timed("import", || {
        let mut facts = Facts::new();
        imports::run(seeds, SEEDS.len(), full, &mut facts, tally);
        table.of_imports(&facts);
        table.of_pages("import", &facts);
    });
    timed("refusal frames", || refusal_frames(seeds, tally));
    timed("brute force", || {
        let mut met = brute::Met::default();
        for &(_, seed) in seeds {
            brute::run(seed, BRUTE_CASES / SEEDS.len(), tally, &mut met);
        }
        let mut slack_met = brute_slack::Met::default();
        for &(_, seed) in seeds {
            brute_slack::run(seed, SLACK_CASES / SEEDS.len(), tally, &mut slack_met);
        }
        table.of_brute_force(&met, &slack_met);
    });
    if full {
        timed("wrong planners", || wrong_planners(programs, tally));
        timed("wrong readers of lists", || imports::wrong_readers(SEEDS[0], tally));
        table.close(tally);
    }
}

fn timed(name: &str, part: impl FnOnce()) {
    let start = Instant::now();
    println!("-- {name}");
    part();
    println!("-- {name}: {:.1} s", start.elapsed().as_secs_f64());
}

fn sweep_side(side: Side, program: &Path, seeds: &[(usize, u64)], full: bool, facts: &mut Facts, tally: &mut Tally) {
    let mut sum = 0;
    for family in FAMILIES.iter().filter(|family| family.count(side) > 0) {
        let start = Instant::now();
        let compared = sweep::family(family, side, program, seeds, SEEDS.len(), facts, tally);
        let seconds = start.elapsed().as_secs_f64();
        println!("{compared:>9}  {} {} ({seconds:.1} s)", family.letter, family.name);
        sum += compared;
        if full {
            tally.check(&format!("sheets of family {}", family.letter), compared >= family.count(side));
        }
    }
    println!("{sum:>9}  sheets");
    if side == Side::Library {
        println!("{:>9}  jobs", facts.asked.iter().sum::<u64>());
        tally.check("a tick is below zero exactly where 17 follows", facts.contradictions == 0);
        tally.check("the library call never replies 17", facts.asked[usize::from(NO_PLAN)] == 0);
    }
    if side == Side::Turns {
        tally.check("the desk's output for a sheet fits one page", facts.beyond_page == 0);
    }
    if full {
        let most = |mark: Mark| facts.count(mark) as usize * 2 > sum;
        let least = match side {
            Side::Host => {
                tally.check("most sheets for the host end with a plan filed", most(Mark::Filed));
                LEAST_AT_HOST
            }
            Side::Desk => {
                tally.check("most desk sheets plan after three refused lines", most(Mark::PlanAfterRefusals));
                LEAST_AT_DESK
            }
            Side::Library => LEAST_AT_LIBRARY,
            Side::Turns => LEAST_IN_TURNS,
        };
        tally.check("number of sheets", sum >= least);
    }
}

/// The call that files a refusal, with any line and number and every relation of page and place.
fn refusal_frames(seeds: &[(usize, u64)], tally: &mut Tally) {
    for &(_, seed) in seeds {
        let mut random = Random::new(seed);
        for index in 0..REFUSAL_CALLS / SEEDS.len() {
            let line = match random.below(3) {
                0 => random.pick(&[0, 1, 255, 256, 65_535, 65_536, u32::MAX]),
                _ => random.next() as u32,
            };
            let relations = if index % 2 == 0 { &compare::WITH_ROOM[..] } else { &compare::WITHOUT_ROOM[..] };
            let relation = random.pick(relations);
            let found = compare::refusal_call(line, random.next() as u8, relation, random.next());
            tally.count(found.is_none());
            if let Some(difference) = found {
                println!("DIFFERENCE in a refusal frame, seed {seed:#x}, {relation:?}");
                println!("second planner: {}\nproduct: {}", difference.second, difference.product);
                return;
            }
        }
    }
}

/// Each wrong planner must be found on every side where it shows.
fn wrong_planners(programs: &Programs, tally: &mut Tally) {
    let mut small = 0;
    let of_sheets = ALL.iter().filter(|(_, due, _)| *due != Due::Import);
    for &(astray, due, name) in of_sheets.clone() {
        let mut sizes = Vec::new();
        for side in Side::ALL.into_iter().filter(|&side| due.at(side)) {
            let place = side.name();
            let found = sweep::find(astray, side, programs.of(side), SEEDS[0]);
            tally.check(&format!("a wrong planner is found at the {place}: {name}"), found.is_some());
            if let Some(sheet) = found {
                small += usize::from(sheet.len() <= SMALL_SHEET);
                sizes.push(format!("{place} {} bytes", sheet.len()));
            }
        }
        let result = if sizes.is_empty() { "not found".to_string() } else { sizes.join(", ") };
        println!("{name}: {result}");
    }
    // Some need 64 jobs or the longest sheet; the others come down to a few lines where the shrinker does its work.
    tally.check("wrong planners show on small sheets", small > of_sheets.count());
    for astray in FOUND_BY_ADMISSION {
        let found = sweep::contradicts_itself(astray, SEEDS[0]);
        tally.check(&format!("the admission contradicts a wrong library call: {astray:?}"), found);
    }
    for astray in FOUND_BY_BRUTE_FORCE {
        let found = brute::finds(astray, SEEDS[0], 2_000);
        tally.check(&format!("the brute force finds a wrong planner: {astray:?}"), found);
    }
    for astray in SLACK_FOUND_BY_BRUTE_FORCE {
        let found = brute_slack::finds(astray, SEEDS[0], 2_000);
        tally.check(&format!("the brute force finds a wrong slack: {astray:?}"), found);
    }
}
