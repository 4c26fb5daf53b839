//! The platforms: four processors with even steps between their speeds, and the power at each speed.

use crate::tasks::PERIOD;

pub const PROCESSORS: usize = 4;

pub struct Platform {
    pub name: &'static str,
    pub lowest: u64,
    pub step: u64,
    /// The power of a processor at each level, in a unit of the platform's own.
    pub power: Vec<u64>,
}

impl Platform {
    /// Document 004's table IV, with power as the square of the voltage times the speed. The voltages count in volts.
    pub fn first() -> Self {
        Platform { name: "Platform 1: speeds 2 to 4 of 4", lowest: 2, step: 1, power: power_of(2, &[3, 4, 5]) }
    }

    /// As above. The voltages count in tenths of a volt.
    pub fn second() -> Self {
        let power = power_of(2, &[14, 16, 22, 28, 35]);
        Platform { name: "Platform 2: speeds 2 to 6 of 6", lowest: 2, step: 1, power }
    }

    /// The quarters of document 004's examples, under its cube law.
    pub fn quarters() -> Self {
        Platform { name: "Quarters", lowest: 1, step: 1, power: vec![1, 8, 27, 64] }
    }

    pub fn levels(&self) -> usize {
        self.power.len()
    }

    pub fn speed(&self, level: usize) -> u64 {
        self.lowest + level as u64 * self.step
    }

    pub fn top(&self) -> u64 {
        self.speed(self.levels() - 1)
    }

    pub fn total_power(&self, levels: &[usize]) -> u64 {
        levels.iter().map(|&level| self.power[level]).sum()
    }

    /// All processors at the top: what power is normalised by.
    pub fn full_power(&self) -> u64 {
        self.total_power(&[self.levels() - 1; PROCESSORS])
    }

    /// The lowest level for processors of one speed: no task may need more than one of them gives, nor all tasks more
    /// than all of them.
    pub fn level_for(&self, largest: u64, sum: u64, processors: usize) -> Option<usize> {
        (0..self.levels()).find(|&level| {
            let supply = PERIOD * self.speed(level);
            self.top() * largest <= supply && self.top() * sum <= supply * processors as u64
        })
    }
}

fn power_of(lowest: u64, volts: &[u64]) -> Vec<u64> {
    (lowest..).zip(volts).map(|(speed, volt)| volt * volt * speed).collect()
}
