//! The roster and the calls that change it.

use crate::frames::{Frame, MachineNumbers};
use crate::growing::grow;
use crate::load::{works_of, Job, Load, MOST_JOBS};
use crate::machine::Machine;
use crate::plan::Plan;
use crate::refusal::Refusal;
use crate::slack::Slack;

/// What an open machine has: its power table, and its jobs by rising id.
struct Open {
    machine: Machine,
    table: [u32; 32],
    jobs: Vec<Job>,
}

#[derive(Default)]
pub struct Roster {
    open: Option<Open>,
}

impl Roster {
    /// Makes the change that a frame asks for; a plan or its slack wanted asks for none.
    pub fn change(&mut self, frame: Frame) -> Result<(), Refusal> {
        match frame {
            Frame::Machine(numbers) => self.open_machine(numbers),
            Frame::Power(values) => self.open_mut()?.replace_table(values.as_slice()),
            Frame::Admit(job) => self.open_mut()?.admit(job),
            Frame::Retire(id) => self.open_mut()?.retire(id),
            Frame::PlanWanted | Frame::SlackWanted => Ok(()),
        }
    }

    pub fn plan(&self) -> Result<Plan, Refusal> {
        self.open.as_ref().map(Open::plan).ok_or(Refusal::NoMachine)
    }

    /// The slack of the plan.
    pub fn slack(&self) -> Result<Slack, Refusal> {
        self.open.as_ref().map(Open::slack).ok_or(Refusal::NoMachine)
    }

    fn open_mut(&mut self) -> Result<&mut Open, Refusal> {
        self.open.as_mut().ok_or(Refusal::NoMachine)
    }

    fn open_machine(&mut self, numbers: MachineNumbers) -> Result<(), Refusal> {
        if self.open.is_some() {
            return Err(Refusal::MachineOpen);
        }
        let machine = Machine::new(numbers)?;
        let table = machine.house_table();
        self.open = Some(Open { machine, table, jobs: Vec::with_capacity(MOST_JOBS) });
        Ok(())
    }
}

impl Open {
    fn replace_table(&mut self, values: &[u32]) -> Result<(), Refusal> {
        if !self.machine.accepts_table(values) {
            return Err(Refusal::PowerTable);
        }
        self.table[..values.len()].copy_from_slice(values);
        Ok(())
    }

    fn find(&self, id: u16) -> Result<usize, usize> {
        self.jobs.binary_search_by_key(&id, |job| job.id)
    }

    fn admit(&mut self, job: Job) -> Result<(), Refusal> {
        // No deadline is in a period of 0, so that needs no look of its own.
        if job.id == 0 || job.cost == 0 || !(1..=job.period).contains(&job.deadline) {
            return Err(Refusal::JobNumbers);
        }
        let Err(place) = self.find(job.id) else { return Err(Refusal::IdHeld) };
        if self.jobs.len() == MOST_JOBS {
            return Err(Refusal::PlacesFull);
        }
        let held = Load::of(&self.jobs);
        let load = held.and_then(|held| held.with(&job)).ok_or(Refusal::HyperperiodTooLong)?;
        // Some plan passes exactly where the one with every processor at the top does. There test k asks that the k
        // largest works be at most k x H, which no cost above its deadline grants, and the last test that all works be
        // at most m x H.
        let capacity = self.machine.processors as u64 * u64::from(load.hyperperiod);
        if job.cost > job.deadline || load.work > capacity {
            return Err(Refusal::NoPlan);
        }
        self.jobs.insert(place, job);
        Ok(())
    }

    fn retire(&mut self, id: u16) -> Result<(), Refusal> {
        if id == 0 {
            return Err(Refusal::JobNumbers);
        }
        let place = self.find(id).map_err(|_| Refusal::IdNotHeld)?;
        self.jobs.remove(place);
        Ok(())
    }

    fn plan(&self) -> Plan {
        let mut places = [0; MOST_JOBS];
        let works = &mut places[..self.jobs.len()];
        let load = works_of(&self.jobs, works);
        let grown = grow(&self.machine, &load, works);
        let processors = self.machine.processors;
        let power = grown.levels[..processors].iter().map(|&level| self.table[usize::from(level)]).sum();
        Plan {
            jobs: self.jobs.len() as u8,
            hyperperiod: load.hyperperiod,
            power,
            raises: grown.raises,
            processors,
            levels: grown.levels,
        }
    }

    fn slack(&self) -> Slack {
        let mut places = [0; MOST_JOBS];
        let works = &mut places[..self.jobs.len()];
        let load = works_of(&self.jobs, works);
        let grown = grow(&self.machine, &load, works);
        Slack::of(&self.machine, &load, works, &grown.levels)
    }
}
