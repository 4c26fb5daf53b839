//! A sheet in the making.

use std::fmt::Write;

/// The longest sheet of the cases, and so the length that full ones come near to.
pub const FULL: usize = yardstick::LONGEST_SHEET;

#[derive(Clone, Copy)]
pub struct Machine {
    pub processors: u32,
    pub levels: u32,
    pub lowest: u32,
    pub step: u32,
}

/// The largest machine of 32 levels, from speed 8 to 256.
pub const LARGE: Machine = Machine { processors: 32, levels: 32, lowest: 8, step: 8 };
/// The machine of the specification's example.
pub const QUARTERS: Machine = Machine { processors: 4, levels: 4, lowest: 1, step: 1 };

#[derive(Clone, Copy)]
pub struct Job {
    pub id: u32,
    pub cost: u32,
    pub period: u32,
    /// The deadline that frame 06 gives; none where frame 03 admits the job.
    pub deadline: Option<u32>,
}

impl Job {
    /// The job with its deadline where its period ended, and a period that is a quarter longer. The work stays, and
    /// with it the plan.
    pub fn due_early(self) -> Self {
        Job { period: self.period + self.period / 4, deadline: Some(self.period), ..self }
    }
}

#[derive(Clone, Default)]
pub struct Draft(String);

impl Draft {
    pub fn on(machine: Machine) -> Self {
        let mut draft = Draft::default();
        draft.machine(machine);
        draft
    }

    pub fn line(&mut self, text: &str) {
        self.0.push_str(text);
        self.0.push('\n');
    }

    pub fn machine(&mut self, machine: Machine) {
        let Machine { processors, levels, lowest, step } = machine;
        self.line(&format!("01{processors:02X}{levels:02X}{lowest:04X}{step:04X}"));
    }

    pub fn admit(&mut self, job: Job) {
        let Job { id, cost, period, deadline } = job;
        match deadline {
            None => self.line(&format!("03{id:04X}{cost:04X}{period:04X}")),
            Some(deadline) => self.line(&format!("06{id:04X}{cost:04X}{period:04X}{deadline:04X}")),
        }
    }

    pub fn admit_all(&mut self, jobs: &[Job]) {
        jobs.iter().for_each(|&job| self.admit(job));
    }

    pub fn retire(&mut self, id: u32) {
        self.line(&format!("04{id:04X}"));
    }

    pub fn power(&mut self, values: &[u32]) {
        let mut text = String::from("02");
        for value in values {
            // Writing to a String never fails.
            let _ = write!(text, "{value:08X}");
        }
        self.line(&text);
    }

    pub fn plan(&mut self) {
        self.line("05");
    }

    pub fn slack(&mut self) {
        self.line("07");
    }

    /// Lines drawn one by one for as long as they fit into the length.
    pub fn fill(&mut self, length: usize, mut draw: impl FnMut(&mut Draft)) {
        loop {
            let before = self.0.len();
            draw(self);
            if self.0.len() > length {
                self.0.truncate(before);
                return;
            }
        }
    }

    pub fn bytes(self) -> Vec<u8> {
        self.0.into_bytes()
    }
}
