//! Machines and power tables.

use crate::frames::MachineNumbers;
use crate::refusal::Refusal;

pub const TOP_SPEED: u32 = 256;
const LARGEST_POWER: u32 = 1 << 24;

pub struct Machine {
    pub processors: usize,
    pub levels: usize,
    pub lowest: u32,
    pub step: u32,
}

impl Machine {
    pub fn new(numbers: MachineNumbers) -> Result<Self, Refusal> {
        let MachineNumbers { processors, levels, lowest, step } = numbers;
        if !(1..=32).contains(&processors) {
            return Err(Refusal::Processors);
        }
        if !(1..=32).contains(&levels) || !(1..=256).contains(&lowest) || !(1..=255).contains(&step) {
            return Err(Refusal::Speeds);
        }
        let (processors, levels) = (usize::from(processors), usize::from(levels));
        let machine = Machine { processors, levels, lowest: lowest.into(), step: step.into() };
        if machine.top() > TOP_SPEED {
            return Err(Refusal::Speeds);
        }
        Ok(machine)
    }

    pub fn speed(&self, level: usize) -> u32 {
        self.lowest + level as u32 * self.step
    }

    pub fn top(&self) -> u32 {
        self.speed(self.levels - 1)
    }

    /// The cubes of the speeds.
    pub fn house_table(&self) -> [u32; 32] {
        let mut table = [0; 32];
        for (level, power) in table[..self.levels].iter_mut().enumerate() {
            *power = self.speed(level).pow(3);
        }
        table
    }

    /// One value a level, none too large, no fall and no shrinking rise.
    pub fn accepts_table(&self, values: &[u32]) -> bool {
        if values.len() != self.levels || values.iter().any(|&value| value > LARGEST_POWER) {
            return false;
        }
        let mut rise = 0;
        for pair in values.windows(2) {
            // A fall is below every rise, and the first rise need only be no fall: so both rules are one comparison.
            if pair[1] < pair[0] + rise {
                return false;
            }
            rise = pair[1] - pair[0];
        }
        true
    }
}
