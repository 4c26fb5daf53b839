//! Task sets in whole numbers: all tasks have one period, so that a cost is a utilisation in parts of that.

use crate::random::Random;

/// The period of every task, in ticks, and with that the hyperperiod. Its hundredths, quarters and sixths are whole.
pub const PERIOD: u64 = 12_000;

const LEAST_COST: u64 = PERIOD / 100;
const SEED: u64 = 0x0040_1500;

pub struct TaskSet {
    /// In the order drawn: the planner has to sort them itself.
    pub costs: Vec<u64>,
}

/// All sets of one total utilisation.
pub struct Group {
    pub total: u64,
    pub sets: Vec<TaskSet>,
}

impl TaskSet {
    /// Tasks with utilisations uniform on [0.01, 1]; the one that reaches the total is cut to meet it exactly.
    fn draw(total: u64, random: &mut Random) -> Self {
        let mut costs = Vec::new();
        let mut left = total;
        while left > 0 {
            let cost = random.between(LEAST_COST, PERIOD).min(left);
            costs.push(cost);
            left -= cost;
        }
        TaskSet { costs }
    }

    /// The costs, never rising.
    pub fn falling(&self) -> Vec<u64> {
        let mut costs = self.costs.clone();
        costs.sort_unstable_by(|a, b| b.cmp(a));
        costs
    }
}

/// The groups from 0.5 to 4 by 0.25. Each has its own generator, so that a run on fewer sets has the first ones of a
/// full run.
pub fn draw_groups(sets: usize) -> Vec<Group> {
    (2..=16)
        .map(|quarters| {
            let total = quarters * PERIOD / 4;
            let mut random = Random::new(SEED + total);
            Group { total, sets: (0..sets).map(|_| TaskSet::draw(total, &mut random)).collect() }
        })
        .collect()
}
