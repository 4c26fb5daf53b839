//! How the book admits a job: what stands against it, by frame 03 or 06, and its entry.

use super::astray::Astray;
use super::book::{in_range, Book, LONGEST_CYCLE, MOST_JOBS};
use super::capacity::{cycle_of_periods, least_common_multiple, Job, LONGEST_FOLLOWED};
use super::conditions::{order, Condition};
use super::deadline_notes;
use super::refusal::{Refusal, NO_PLAN};
use crate::facts::{Facts, Mark};

/// A job that is offered, and all jobs with it, by rising id and in their cycle.
pub struct Offer {
    pub job: Job,
    pub jobs: Vec<Job>,
    pub cycle: u128,
}

impl Book {
    // 11, 4, 13, 15, 16, 17.
    pub(super) fn admit(&mut self, job: Job, facts: &mut Facts) -> Result<(), Refusal> {
        let offer = self.offer(self.as_taken(job));
        if job.by_06 {
            self.last_deadline = Some(job.deadline);
        }
        if let Some(condition) = self.first_against(&offer, false, facts) {
            self.note_turned_down(condition, &offer, facts);
            if condition == Condition::NoPlan && self.is(Astray::HeavyJobKept) && job.cost <= job.deadline {
                self.jobs.insert(job.id, job);
            }
            return Err(self.number_of(condition, &job));
        }
        self.enter(&offer, facts);
        Ok(())
    }

    /// The job, for which a wrong planner takes its deadline from an earlier line.
    pub(super) fn as_taken(&self, job: Job) -> Job {
        let stale = match self.astray {
            Some(Astray::PlainDeadlineOfLast) if !job.by_06 => self.last_deadline,
            Some(Astray::RetiredDeadlineKept) if !job.by_06 => self.retired.get(&job.id).map(|gone| gone.deadline),
            _ => None,
        };
        Job { deadline: stale.filter(|&deadline| deadline < job.period).unwrap_or(job.deadline), ..job }
    }

    pub(super) fn offer(&self, job: Job) -> Offer {
        let job =
            if self.is(Astray::AllByPeriods) && self.deadline_in_range(&job) { job.with_whole_period() } else { job };
        let mut jobs = self.jobs();
        if self.is(Astray::HeldReplaced06) {
            jobs.retain(|held| held.id != job.id);
        }
        let position = jobs.partition_point(|held| held.id < job.id);
        jobs.insert(position, job);
        let ticks = if self.is(Astray::CycleByPeriods) { job.period } else { job.deadline };
        Offer { job, jobs, cycle: least_common_multiple(self.cycle(), u128::from(ticks)) }
    }

    /// The first condition that holds against the job.
    pub(super) fn first_against(&self, offer: &Offer, asked: bool, facts: &mut Facts) -> Option<Condition> {
        let conditions = order(self.astray, offer.job.by_06).into_iter();
        let mut looked_at = conditions.filter(|&condition| !asked || self.is_asked(condition, offer));
        looked_at.find(|&condition| self.stands_against(condition, offer, facts))
    }

    /// Whether the library call looks at this condition. It never replies 17, but one with 17 before 16 does where both hold.
    fn is_asked(&self, condition: Condition, offer: &Offer) -> bool {
        match (condition, self.astray) {
            (Condition::Held, Some(Astray::HeldAccepted)) => false,
            (Condition::Full, Some(Astray::FullAccepted)) => false,
            (Condition::Cycle | Condition::NoPlan, Some(Astray::CycleAccepted)) => false,
            (Condition::Deadline, Some(Astray::AskedDeadlineUnchecked)) => offer.job.deadline == 0,
            (Condition::NoPlan, _) => self.cycle_is_long(offer),
            _ => true,
        }
    }

    fn stands_against(&self, condition: Condition, offer: &Offer, facts: &mut Facts) -> bool {
        let Offer { job, jobs, cycle } = offer;
        match condition {
            Condition::NoMachine => self.machine.is_none(),
            Condition::Numbers => !self.numbers_in_range(job),
            Condition::Deadline => !self.deadline_in_range(job),
            Condition::Held => self.holds(job.id) && !(job.by_06 && self.is(Astray::HeldReplaced06)),
            Condition::Full => self.is_full(),
            Condition::Cycle => self.cycle_is_long(offer),
            Condition::NoPlan => {
                let grown = self.grown(jobs, *cycle, Astray::AdmittedByPeriod, facts);
                grown.is_none() || self.is(Astray::EveryJobRefused)
            }
        }
    }

    pub(super) fn number_of(&self, condition: Condition, job: &Job) -> Refusal {
        match condition {
            Condition::Deadline if job.deadline == 0 && self.is(Astray::DeadlineZeroNoPlan) => NO_PLAN,
            _ => condition.number(),
        }
    }

    fn numbers_in_range(&self, job: &Job) -> bool {
        let heavy = match self.astray {
            Some(Astray::DeadlineAloneChecked) if job.by_06 => return true,
            Some(Astray::HeavyCostOutOfRange) => job.cost > job.period,
            Some(Astray::CostAboveDeadlineRefused) => job.by_06 && job.cost > job.deadline,
            _ => false,
        };
        !heavy && [job.id, job.cost, job.period].into_iter().all(in_range)
    }

    /// D from 1 to T.
    fn deadline_in_range(&self, job: &Job) -> bool {
        let latest = match self.astray {
            Some(Astray::PeriodEndRefused) if job.by_06 => job.period.saturating_sub(1),
            Some(Astray::DeadlineOneMoreAccepted) => job.period + 1,
            Some(Astray::DeadlineUnchecked) => 65_535,
            Some(Astray::DeadlineSigned) if job.by_06 => job.period.min(32_767),
            _ => job.period,
        };
        (1..=latest).contains(&job.deadline)
    }

    fn is_full(&self) -> bool {
        let places = MOST_JOBS - usize::from(self.is(Astray::SixtyThreePlaces));
        let used = match self.astray {
            Some(Astray::PlaceNeverReused) => self.admitted,
            Some(Astray::NoPlaceFor06) => self.jobs.values().filter(|job| !job.by_06).count(),
            _ => self.jobs.len(),
        };
        used >= places
    }

    fn cycle_is_long(&self, offer: &Offer) -> bool {
        match self.astray {
            // Even a wrong planner needs numbers with which it can go on.
            Some(Astray::CycleLimitByPeriods) => {
                cycle_of_periods(&offer.jobs) > LONGEST_CYCLE || offer.cycle >= LONGEST_FOLLOWED
            }
            _ => offer.cycle > self.longest_cycle(),
        }
    }

    /// Whether neither 16 nor 17 stands against this job.
    pub fn fits(&self, job: &Job) -> bool {
        let offer = self.offer(*job);
        let conditions = [Condition::Cycle, Condition::NoPlan];
        !conditions.into_iter().any(|condition| self.stands_against(condition, &offer, &mut Facts::new()))
    }

    /// The job goes in by its id.
    fn enter(&mut self, offer: &Offer, facts: &mut Facts) {
        let Offer { job, ref jobs, cycle } = *offer;
        let before = self.retired.get(&job.id);
        facts.mark_if(before.is_some(), Mark::Readmitted);
        facts.mark_if(self.was_full && self.jobs.len() + 1 == MOST_JOBS, Mark::PlaceReused);
        if self.astray.is_none() {
            deadline_notes::note_admitted(&job, before, jobs, facts);
        }
        if self.is(Astray::FirstPlanRepeated) && self.first_plan.is_none() {
            self.first_plan = self.grown(jobs, cycle, Astray::AdmittedByPeriod, facts);
        }
        self.earlier = self.jobs();
        if !self.is(Astray::StoresNothing) {
            self.jobs.insert(job.id, job);
        }
        self.admitted += 1;
        self.old_cycle = cycle;
        self.was_full |= self.jobs.len() == MOST_JOBS;
    }

    // The facts of a job that is turned down, and what stands against it besides.
    pub(super) fn note_turned_down(&self, first: Condition, offer: &Offer, facts: &mut Facts) {
        if self.astray.is_some() {
            return;
        }
        let Offer { job, jobs, cycle } = offer;
        match first {
            Condition::NoMachine => {
                let out_of_range = !self.numbers_in_range(job) || !self.deadline_in_range(job);
                facts.mark_if(out_of_range, Mark::MachineBeforeRange);
            }
            Condition::Held => facts.mark_if(self.is_full(), Mark::HeldBeforeFull),
            Condition::Full => facts.mark_if(*cycle > LONGEST_CYCLE, Mark::FullBeforeCycle),
            Condition::Cycle => {
                facts.mark_if(*cycle == LONGEST_CYCLE + 1, Mark::CycleBeyond);
                facts.mark_if(job.cost > job.period, Mark::CycleBeforeHeavy);
            }
            Condition::NoPlan => {
                facts.mark_if(job.cost == job.period + 1, Mark::HeaviestMissed);
                let early = job.is_early() && job.cost <= job.deadline;
                facts.mark_if(early && self.fits(&job.with_whole_period()), Mark::FitsByPeriod);
            }
            _ => (),
        }
        deadline_notes::note_refused(first, job, self.jobs.get(&job.id), jobs, facts);
        if job.by_06 {
            self.note_two(first, offer, facts);
        }
    }

    fn note_two(&self, first: Condition, offer: &Offer, facts: &mut Facts) {
        let mut scratch = Facts::new();
        let later = first.later().filter(|&later| self.is_known(later, &offer.job));
        for later in later.filter(|&later| self.stands_against(later, offer, &mut scratch)) {
            facts.two_of_06[usize::from(first.number())][usize::from(later.number())] += 1;
        }
    }

    // Whether it can be said of this job that the condition holds. Where 4 is meant, it is for the deadline alone.
    fn is_known(&self, condition: Condition, job: &Job) -> bool {
        let numbers = self.numbers_in_range(job);
        match condition {
            Condition::Numbers => false,
            Condition::Cycle | Condition::NoPlan => numbers && job.deadline > 0 && self.machine.is_some(),
            _ => numbers,
        }
    }
}
