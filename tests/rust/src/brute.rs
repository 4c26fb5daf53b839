//! A brute force for small machines: every never-rising plan is tried against the tests as document 01 writes them, with works by
//! request 2026-04, and no passing one may draw less power than the plan filed, under tables drawn at random.

use crate::archive;
use crate::facts::Facts;
use crate::planner::astray::Astray;
use crate::planner::host::{outcome, Outcome};
use crate::random::Random;
use crate::sheets::tables::convex;
use crate::tally::Tally;

/// A planner under examination: the reply to a sheet and the frame that it filed.
pub type Planner<'a> = &'a dyn Fn(&[u8]) -> (u32, Vec<u8>);

/// What the cases met.
#[derive(Default)]
pub struct Met {
    pub accepted: u64,
    pub refused: u64,
    pub several_plans: u64,
    pub cheaper_fails: u64,
    pub below_top: u64,
    pub no_job: u64,
    pub early: u64,
    pub other_by_period: u64,
    pub refused_by_deadline: u64,
}

pub struct Small {
    pub m: usize,
    pub l: usize,
    b: u64,
    d: u64,
}

impl Small {
    pub fn any(random: &mut Random) -> Self {
        let (m, l) = (random.between(1, 5) as usize, random.between(1, 6) as usize);
        let rises = l as u64 - 1;
        let d = if random.one_in(2) { random.between(1, 4) } else { random.between(1, 255 / rises.max(1)) };
        let b = if random.one_in(2) { random.between(1, 4) } else { random.between(1, 256 - rises * d) };
        Small { m, l, b: b.min(256 - rises * d), d }
    }

    pub fn speed(&self, level: usize) -> u64 {
        self.b + level as u64 * self.d
    }

    pub fn line(&self) -> String {
        format!("01{:02X}{:02X}{:04X}{:04X}\n", self.m, self.l, self.b, self.d)
    }

    /// All level lists that never rise from processor 1 to m.
    pub fn never_rising(&self) -> Vec<Vec<usize>> {
        let mut plans = vec![Vec::new()];
        for _ in 0..self.m {
            let mut longer = Vec::new();
            for plan in &plans {
                let highest = plan.last().copied().unwrap_or(self.l - 1);
                for level in 0..=highest {
                    let mut next: Vec<usize> = plan.clone();
                    next.push(level);
                    longer.push(next);
                }
            }
            plans = longer;
        }
        plans
    }

    /// Both tests of document 01, k running from 1 to the smaller of m - 1 and n.
    pub fn passes(&self, plan: &[usize], works: &[u64], cycle: u64) -> bool {
        let top = self.speed(self.l - 1);
        let speeds = |count: usize| plan[..count].iter().map(|&level| self.speed(level)).sum::<u64>();
        let first =
            (1..=works.len().min(self.m - 1)).all(|k| top * works[..k].iter().sum::<u64>() <= cycle * speeds(k));
        first && top * works.iter().sum::<u64>() <= cycle * speeds(self.m)
    }
}

/// A job offered: what it costs and when it is due. The period decides nothing but which frame can say so.
#[derive(Clone, Copy)]
pub struct Offered {
    cost: u64,
    period: u64,
    deadline: u64,
}

impl Offered {
    /// A job beside others of this deadline, now and then one that is too heavy.
    pub fn any(random: &mut Random, deadline: u64) -> Self {
        let deadline = random.pick(&[deadline, deadline, 2 * deadline, 3 * deadline, 8]);
        let most = deadline + u64::from(random.one_in(8));
        let cost = random.between(1, most);
        let period = deadline + random.pick(&[0, 0, 1, 2, deadline, 8]);
        Offered { cost, period, deadline }
    }

    /// Frame 03 can only say that a job is due at its period's end, frame 06 all.
    pub fn line(&self, random: &mut Random, id: u64) -> String {
        let Offered { cost, period, deadline } = self;
        if period == deadline && random.one_in(2) {
            format!("03{id:04X}{cost:04X}{period:04X}\n")
        } else {
            format!("06{id:04X}{cost:04X}{period:04X}{deadline:04X}\n")
        }
    }

    pub fn is_early(&self) -> bool {
        self.deadline < self.period
    }

    fn with_whole_period(&self) -> Self {
        Offered { deadline: self.period, ..*self }
    }
}

/// The cycle by counting up, and the works from the largest.
pub fn cycle_and_works(jobs: &[Offered]) -> (u64, Vec<u64>) {
    let cycle = (1..).find(|cycle| jobs.iter().all(|job| cycle % job.deadline == 0)).unwrap_or(1);
    let mut works: Vec<u64> = jobs.iter().map(|job| job.cost * (cycle / job.deadline)).collect();
    works.sort_unstable_by(|a, b| b.cmp(a));
    (cycle, works)
}

/// What a plan frame says.
pub struct Filed {
    jobs: u64,
    cycle: u64,
    pub power: u64,
    raises: u64,
    pub levels: Vec<usize>,
}

impl Filed {
    pub fn read(frame: &[u8]) -> Option<Self> {
        let text = std::str::from_utf8(frame).ok()?.strip_suffix('\n')?;
        let field = |from: usize, to: usize| u64::from_str_radix(text.get(from..to)?, 16).ok();
        let levels = (24..text.len()).step_by(2).map(|place| field(place, place + 2));
        let levels: Option<Vec<usize>> = levels.map(|level| level.map(|level| level as usize)).collect();
        (field(0, 2)? == 0x81).then_some(())?;
        Some(Filed {
            jobs: field(2, 4)?,
            cycle: field(4, 12)?,
            power: field(12, 20)?,
            raises: field(20, 24)?,
            levels: levels?,
        })
    }
}

/// One machine with jobs offered one after another; the text says what is wrong and on which sheet.
pub fn case(random: &mut Random, planner: Planner, met: &mut Met) -> Result<(), String> {
    let small = Small::any(random);
    let plans = small.never_rising();
    let mut lines = small.line();
    let mut jobs: Vec<Offered> = Vec::new();
    let deadline = random.between(1, 12);
    for id in 0..=random.between(0, 6) {
        let mut offered = (jobs.clone(), lines.clone());
        // The first round has no job, so that the empty roster is planned too.
        if id > 0 {
            let job = Offered::any(random, deadline);
            offered.0.push(job);
            offered.1.push_str(&job.line(random, id));
        }
        if examine(&small, &plans, &offered.0, &offered.1, random, planner, met)? {
            (jobs, lines) = offered;
        }
    }
    Ok(())
}

/// True where the jobs have a plan and the planner filed a cheapest one, false where they have none and it said so.
fn examine(
    small: &Small,
    plans: &[Vec<usize>],
    jobs: &[Offered],
    lines: &str,
    random: &mut Random,
    planner: Planner,
    met: &mut Met,
) -> Result<bool, String> {
    let (cycle, works) = cycle_and_works(jobs);
    let passing: Vec<&Vec<usize>> = plans.iter().filter(|plan| small.passes(plan, &works, cycle)).collect();
    note_deadlines(small, plans, &passing, jobs, met);
    if passing.is_empty() {
        met.refused += 1;
        let (reply, _) = planner(lines.as_bytes());
        return if reply == 17 { Ok(false) } else { Err(format!("{lines}no plan passes, reply {reply}")) };
    }
    met.accepted += 1;
    met.no_job += u64::from(jobs.is_empty());
    met.several_plans += u64::from(passing.len() > 1);
    for _ in 0..3 {
        let table = convex(random, small.l);
        let values: String = table.iter().map(|value| format!("{value:08X}")).collect();
        let sheet = format!("{lines}02{values}\n");
        let (reply, frame) = planner(sheet.as_bytes());
        let filed = Filed::read(&frame).filter(|_| reply == 0);
        let filed = filed.ok_or(format!("{sheet}a plan passes, reply {reply}"))?;
        let fault = fault_of(small, &passing, &filed, (jobs.len() as u64, cycle), &table);
        if let Some(fault) = fault {
            return Err(format!("{sheet}{fault}: levels {:?}", filed.levels));
        }
        note(small, plans, &passing, &filed, &table, met);
    }
    Ok(true)
}

// What the same jobs would have with every deadline at its period's end.
fn note_deadlines(small: &Small, plans: &[Vec<usize>], passing: &[&Vec<usize>], jobs: &[Offered], met: &mut Met) {
    if !jobs.iter().any(Offered::is_early) {
        return;
    }
    let by_period: Vec<Offered> = jobs.iter().map(Offered::with_whole_period).collect();
    // Periods need not have a short cycle.
    if by_period.iter().any(|job| 360 % job.period != 0) {
        return;
    }
    let (cycle, works) = cycle_and_works(&by_period);
    let others: Vec<&Vec<usize>> = plans.iter().filter(|plan| small.passes(plan, &works, cycle)).collect();
    met.early += 1;
    met.other_by_period += u64::from(!passing.is_empty() && passing != others);
    met.refused_by_deadline += u64::from(passing.is_empty() && !others.is_empty());
}

fn power(plan: &[usize], table: &[u32]) -> u64 {
    plan.iter().map(|&level| u64::from(table[level])).sum()
}

fn fault_of(
    small: &Small,
    passing: &[&Vec<usize>],
    filed: &Filed,
    (jobs, cycle): (u64, u64),
    table: &[u32],
) -> Option<&'static str> {
    if filed.levels.len() != small.m || !passing.contains(&&filed.levels) {
        return Some("the plan filed does not pass, or it rises");
    }
    if filed.power != power(&filed.levels, table) {
        return Some("the power filed is not the sum of the table's values");
    }
    if passing.iter().any(|plan| power(plan, table) < filed.power) {
        return Some("a passing plan draws less");
    }
    if filed.raises != filed.levels.iter().sum::<usize>() as u64 {
        return Some("the raises filed are not the sum of the levels");
    }
    if (filed.jobs, filed.cycle) != (jobs, cycle) {
        return Some("the number of jobs or the cycle filed is wrong");
    }
    None
}

fn note(small: &Small, plans: &[Vec<usize>], passing: &[&Vec<usize>], filed: &Filed, table: &[u32], met: &mut Met) {
    let cheaper = |plan: &&Vec<usize>| power(plan, table) < filed.power && !passing.contains(plan);
    met.cheaper_fails += u64::from(plans.iter().any(|plan| cheaper(&plan)));
    met.below_top += u64::from(filed.levels.iter().any(|&level| level + 1 < small.l));
}

/// The product as a planner under examination.
pub fn product(sheet: &[u8]) -> (u32, Vec<u8>) {
    let mut page = [0; 89];
    let reply = archive::plan_sheet(sheet, &mut page, 0);
    let end = page.iter().position(|&byte| byte == b'\n').map_or(0, |last| last + 1);
    (reply, page[..end].to_vec())
}

/// The second planner, right or astray, as a planner under examination.
pub fn second(sheet: &[u8], astray: Option<Astray>) -> (u32, Vec<u8>) {
    match outcome(sheet, astray, &mut Facts::new()) {
        Outcome::Frame(frame) => (0, frame),
        Outcome::Refused { refusal, .. } => (u32::from(refusal), Vec::new()),
        Outcome::NoMachine => (11, Vec::new()),
    }
}

/// Runs so many cases under a seed and counts them; stops at the first fault.
pub fn run(seed: u64, cases: usize, tally: &mut Tally, met: &mut Met) {
    for index in 0..cases {
        let mut random = Random::for_sheet(seed, 0, index);
        let result = case(&mut random, &product, met);
        tally.count(result.is_ok());
        if let Err(fault) = result {
            println!("DIFFERENCE from the brute force, seed {seed:#x}, case {index}:\n{fault}");
            return;
        }
    }
}

/// Whether the brute force finds this wrong planner within so many cases.
pub fn finds(astray: Astray, seed: u64, cases: usize) -> bool {
    let planner = |sheet: &[u8]| second(sheet, Some(astray));
    let mut met = Met::default();
    (0..cases).any(|index| case(&mut Random::for_sheet(seed, 0, index), &planner, &mut met).is_err())
}
