//! The book of calls: a machine or none, a table, and jobs by rising id. A refused call leaves it as it was.

use super::admission::Offer;
use super::astray::Astray;
use super::capacity::{cycle_of_periods, hyperperiod, least_common_multiple, Job, Needs};
use super::deadline_notes;
use super::frames::{filed, Frame};
use super::growing::{grow, Grown};
use super::machine::Machine;
use super::power;
use super::refusal::*;
use super::slack::{self, Slack};
use crate::facts::{Facts, Mark};
use std::collections::BTreeMap;

pub const MOST_JOBS: usize = 64;
pub const LONGEST_CYCLE: u128 = 16_777_216;

#[derive(Clone)]
pub struct Book {
    pub(super) astray: Option<Astray>,
    pub(super) machine: Option<Machine>,
    table: Vec<u32>,
    pub(super) jobs: BTreeMap<u32, Job>,
    // The rest serves the facts and the wrong planners alone.
    tables: u32,
    /// The job that each id last stood for.
    pub(super) retired: BTreeMap<u32, Job>,
    pub(super) was_full: bool,
    pub(super) admitted: usize,
    pub(super) old_cycle: u128,
    /// The least common multiple of the deadlines of the jobs by frame 06 that have gone.
    left_cycle: u128,
    pub(super) last_deadline: Option<u32>,
    pub(super) first_plan: Option<Grown>,
    pub(super) earlier: Vec<Job>,
}

impl Book {
    pub fn new(astray: Option<Astray>) -> Self {
        Book {
            astray,
            machine: None,
            table: Vec::new(),
            jobs: BTreeMap::new(),
            tables: 0,
            retired: BTreeMap::new(),
            was_full: false,
            admitted: 0,
            old_cycle: 1,
            left_cycle: 1,
            last_deadline: None,
            first_plan: None,
            earlier: Vec::new(),
        }
    }

    pub fn machine(&self) -> Option<Machine> {
        self.machine
    }

    pub fn jobs(&self) -> Vec<Job> {
        self.jobs.values().copied().collect()
    }

    pub fn holds(&self, id: u32) -> bool {
        self.jobs.contains_key(&id)
    }

    pub(super) fn is(&self, astray: Astray) -> bool {
        self.astray == Some(astray)
    }

    /// A frame 01 to 04, or 06; frame 05 is `plan` and frame 07 `slack`.
    pub fn take(&mut self, frame: &Frame, facts: &mut Facts) -> Result<(), Refusal> {
        if let Some(job) = frame.job(self.astray) {
            return self.admit(job, facts);
        }
        match *frame {
            Frame::Machine { m, l, b, d } => {
                let machine = Machine { processors: m, levels: l, lowest: b, step: d };
                self.open(machine, facts)
            }
            Frame::Power(ref values) => self.replace_table(values, facts),
            Frame::Retire { id } => self.retire(id, facts),
            _ => self.machine.map(|_| ()).ok_or(NO_MACHINE),
        }
    }

    // 12, 1, 2.
    fn open(&mut self, machine: Machine, facts: &mut Facts) -> Result<(), Refusal> {
        if self.machine.is_some() {
            let fault = machine.check(None, &mut Facts::new());
            facts.mark_if(fault.is_err(), Mark::OpenBeforeRange);
            return Err(fault.err().filter(|_| self.is(Astray::RangeBeforeOpen)).unwrap_or(MACHINE_OPEN));
        }
        let checked = machine.check(self.astray, facts);
        if checked.is_ok() || (self.is(Astray::RefusedMachineOpened) && small_enough(&machine)) {
            self.table = power::house_table(&machine, self.astray);
            self.machine = Some(machine);
        }
        checked?;
        facts.mark_if(machine.lowest == 1, Mark::LowestOne);
        facts.mark_if(machine.lowest == 256, Mark::LowestMost);
        facts.mark_if(machine.step == 1, Mark::StepOne);
        facts.mark_if(machine.step == 255, Mark::StepMost);
        facts.mark_if(machine.top() == 256, Mark::TopMost);
        Ok(())
    }

    // 11, 3.
    fn replace_table(&mut self, values: &[u32], facts: &mut Facts) -> Result<(), Refusal> {
        let machine = self.machine.ok_or(NO_MACHINE)?;
        let checked = power::check(values, machine.levels, self.astray, facts);
        if self.is(Astray::RefusedTableStored) && values.len() == self.table.len() {
            self.table = values.iter().map(|&value| value % (1 << 25)).collect();
        }
        checked?;
        facts.mark_if(self.tables > 0, Mark::TableReplaced);
        self.tables += 1;
        if !self.is(Astray::TableKept) {
            self.table = values.to_vec();
        }
        Ok(())
    }

    // 11, 4, 14.
    fn retire(&mut self, id: u32, facts: &mut Facts) -> Result<(), Refusal> {
        let range_first = self.is(Astray::RangeBeforeMachine) && !in_range(id);
        if self.machine.is_none() && !range_first {
            facts.mark_if(!in_range(id), Mark::MachineBeforeRange);
            return Err(NO_MACHINE);
        }
        if !in_range(id) {
            return Err(JOB_NUMBERS);
        }
        let unknown = |job: &&Job| job.by_06 && self.is(Astray::Retired06NotFound);
        let job = *self.jobs.get(&id).filter(|job| !unknown(job)).ok_or(ID_NOT_HELD)?;
        let before = self.cycle();
        self.jobs.remove(&id);
        self.retired.insert(id, job);
        if job.by_06 {
            // Only where the limit on H counts them too do these stay within it.
            if self.is(Astray::Retired06InCycle) {
                self.left_cycle = least_common_multiple(self.left_cycle, u128::from(job.deadline));
            }
            facts.mark_if(self.cycle() < before, Mark::Retired06Cycle);
        }
        Ok(())
    }

    pub(super) fn longest_cycle(&self) -> u128 {
        match self.astray {
            Some(Astray::CycleBeyondAccepted) => LONGEST_CYCLE + 1,
            Some(Astray::CycleLimitShort) => LONGEST_CYCLE - 2,
            _ => LONGEST_CYCLE,
        }
    }

    pub(super) fn cycle(&self) -> u128 {
        match self.astray {
            Some(Astray::OldCycle) => self.old_cycle,
            Some(Astray::CycleByPeriods) => cycle_of_periods(&self.jobs()),
            Some(Astray::Retired06InCycle) => least_common_multiple(hyperperiod(&self.jobs()), self.left_cycle),
            _ => hyperperiod(&self.jobs()),
        }
    }

    /// The plan of these jobs. The planner that is named here goes by their periods.
    pub(super) fn grown(&self, jobs: &[Job], cycle: u128, by_period: Astray, facts: &mut Facts) -> Option<Grown> {
        let machine = self.machine?;
        let astray = if self.is(by_period) { Some(Astray::WorkByPeriod) } else { self.astray };
        let needs = Needs::new(&machine, jobs, cycle, astray, facts);
        grow(&machine, &needs, self.astray, facts)
    }

    /// Frame 81 with its 0A for the book's jobs. Only 11 can stand against it here; room is the caller's matter.
    pub fn plan(&self, facts: &mut Facts) -> Result<Vec<u8>, Refusal> {
        let machine = self.machine.ok_or(NO_MACHINE)?;
        let jobs = self.jobs();
        let cycle = self.cycle();
        let grown = self.plan_for(&machine, &jobs, cycle, facts);
        let total = power::total(&grown.levels, &self.table, self.astray);
        note_plan(&machine, jobs.len(), cycle, grown.raises, facts);
        deadline_notes::note_planned(&jobs, cycle, facts);
        let mut bytes = vec![0x81, jobs.len() as u8];
        bytes.extend((cycle as u32).to_be_bytes());
        bytes.extend(total.to_be_bytes());
        bytes.extend((grown.raises as u16).to_be_bytes());
        bytes.extend(grown.levels.iter().map(|&level| level as u8));
        Ok(self.written(&bytes))
    }

    fn plan_for(&self, machine: &Machine, jobs: &[Job], cycle: u128, facts: &mut Facts) -> Grown {
        match &self.first_plan {
            Some(first) if self.is(Astray::FirstPlanRepeated) => first.clone(),
            _ => self.grown(jobs, cycle, Astray::PlannedByPeriod, facts).unwrap_or_else(|| top_plan(machine)),
        }
    }

    fn written(&self, bytes: &[u8]) -> Vec<u8> {
        let frame = filed(bytes);
        if self.is(Astray::LowerCaseWritten) {
            frame.to_ascii_lowercase()
        } else {
            frame
        }
    }

    /// Frame 83 with its 0A, under the plan that frame 05 would get now. Again only 11 can stand against it here.
    pub fn slack(&self, facts: &mut Facts) -> Result<Vec<u8>, Refusal> {
        let machine = self.machine.ok_or(NO_MACHINE)?;
        let jobs = if self.is(Astray::SlackOfEarlierJobs) { self.earlier.clone() } else { self.jobs() };
        let cycle = self.cycle();
        let grown = match self.astray {
            Some(Astray::SlackAtTop) => top_plan(&machine),
            Some(Astray::SlackOfEarlierPlan) => self.plan_for(&machine, &self.earlier, cycle, facts),
            _ => self.plan_for(&machine, &jobs, cycle, facts),
        };
        let needs = Needs::new(&machine, &jobs, cycle, self.slack_works(), facts);
        let mut slacks = slack::of_tests(&machine, &needs, &grown.levels, self.astray);
        if self.is(Astray::SlackTestsLeftOut) {
            slacks.drain(jobs.len().min(slacks.len() - 1)..slacks.len() - 1);
        }
        if self.astray.is_none() {
            slack::note_filed(&machine, jobs.len(), &needs, &slacks, facts);
        }
        Ok(self.written(&slack::frame_bytes(&slacks, self.astray)))
    }

    /// The way in which the works of the slack alone are wrong.
    fn slack_works(&self) -> Option<Astray> {
        match self.astray {
            Some(Astray::SlackByCost) => Some(Astray::OrderByCost),
            Some(Astray::SlackByPeriod) => Some(Astray::WorkByPeriod),
            astray => astray,
        }
    }

    /// The library call for a job not yet held: 11, 4, 13, 15, 16, else the slack of tests 1 to m with the job added and every
    /// core at top speed.
    pub fn slack_with(&self, job: Job, facts: &mut Facts) -> Result<Vec<Slack>, Refusal> {
        let job = match self.astray {
            Some(Astray::AskedByPeriod) => job.with_whole_period(),
            _ => self.as_taken(job),
        };
        let offer = self.offer(job);
        if let Some(condition) = self.first_against(&offer, true, facts) {
            self.note_turned_down(condition, &offer, facts);
            return Err(self.number_of(condition, &job));
        }
        let machine = self.machine.ok_or(NO_MACHINE)?;
        let Offer { mut jobs, mut cycle, .. } = offer;
        let mut levels = top_plan(&machine).levels;
        match self.astray {
            Some(Astray::AskedWithoutJob) => (jobs, cycle) = (self.jobs(), self.cycle()),
            Some(Astray::AskedOldCycle) => cycle = self.cycle(),
            Some(Astray::AskedAtGrownPlan) => levels = self.plan_for(&machine, &jobs, cycle, facts).levels,
            _ => (),
        }
        let needs = Needs::new(&machine, &jobs, cycle, self.slack_works(), facts);
        facts.mark_if(cycle == LONGEST_CYCLE - 1, Mark::AskedLongestCycle);
        facts.mark_if(self.cycle() < cycle, Mark::AskedCycleGrows);
        facts.mark_if(!job.by_06 && jobs.iter().any(Job::is_early), Mark::AskedAmongEarly);
        Ok(slack::of_tests(&machine, &needs, &levels, self.astray))
    }

    /// Only a wrong planner does this.
    pub fn forget_jobs(&mut self) {
        self.jobs.clear();
    }

    /// Only a wrong planner does this.
    pub fn forget_first(&mut self) {
        self.jobs.pop_first();
    }

    /// Only a wrong planner does this.
    pub fn keep(&mut self, job: Job) {
        self.jobs.insert(job.id, job);
    }
}

/// Of an id, a cost or a period.
pub(super) fn in_range(number: u32) -> bool {
    (1..=65_535).contains(&number)
}

// Even a wrong planner needs numbers with which it can go on.
fn small_enough(machine: &Machine) -> bool {
    let counts = (1..=33).contains(&machine.processors) && (1..=32).contains(&machine.levels);
    counts && machine.step < 300 && machine.top() <= 300
}

// Jobs on the book always have a plan; only a wrong planner comes here.
fn top_plan(machine: &Machine) -> Grown {
    let top = machine.levels - 1;
    Grown { levels: vec![top; machine.processors as usize], raises: top * machine.processors }
}

fn note_plan(machine: &Machine, jobs: usize, cycle: u128, raises: u32, facts: &mut Facts) {
    facts.mark_if(jobs == MOST_JOBS, Mark::Held64);
    facts.mark_if(jobs == 0, Mark::NoJobs);
    facts.mark_if(machine.processors == 1, Mark::OneProcessor);
    facts.mark_if(machine.processors == 32, Mark::MostProcessors);
    facts.mark_if(machine.levels == 1, Mark::OneLevel);
    facts.mark_if(machine.levels == 32, Mark::MostLevels);
    facts.mark_if(cycle == LONGEST_CYCLE - 1, Mark::LongestCycle);
    facts.mark_if(raises == 0 && jobs > 0, Mark::NoRaises);
    facts.mark_if(raises == 992, Mark::MostRaises);
}
