//! The machine: m processors and L levels with speeds b + j x d.

use super::astray::Astray;
use super::refusal::{Refusal, PROCESSORS, SPEEDS};
use crate::facts::{Facts, Mark};

#[derive(Clone, Copy)]
pub struct Machine {
    pub processors: u32,
    pub levels: u32,
    pub lowest: u32,
    pub step: u32,
}

impl Machine {
    pub fn speed(&self, level: u32) -> u32 {
        self.lowest + level * self.step
    }

    pub fn top(&self) -> u32 {
        self.speed(self.levels - 1)
    }

    /// Refusal 1, then refusal 2.
    pub fn check(&self, astray: Option<Astray>, facts: &mut Facts) -> Result<(), Refusal> {
        if !(1..=32).contains(&self.processors) {
            facts.mark_if(!self.speeds_in_range(astray, &mut Facts::new()), Mark::ProcessorsBeforeSpeeds);
            return Err(PROCESSORS);
        }
        if !self.speeds_in_range(astray, facts) {
            return Err(SPEEDS);
        }
        Ok(())
    }

    fn speeds_in_range(&self, astray: Option<Astray>, facts: &mut Facts) -> bool {
        if !(1..=32).contains(&self.levels) || !(1..=256).contains(&self.lowest) {
            return false;
        }
        // With one level the step has no effect on a speed, but it is still given, and its range is 1 to 255.
        let step_is_free = self.levels == 1 && astray == Some(Astray::StepFreeAtOneLevel);
        if !(1..=255).contains(&self.step) && !step_is_free {
            facts.mark_if(self.levels == 1, Mark::StepBeyondOneLevel);
            return false;
        }
        facts.mark_if(self.top() == 257, Mark::TopBeyond);
        self.top() <= 256 || (self.top() == 257 && astray == Some(Astray::TopBeyondAccepted))
    }
}
