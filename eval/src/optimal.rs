//! The optimum: every assignment of levels is tried against the capacity tests.

use crate::capacity;
use crate::platforms::{Platform, PROCESSORS};
use crate::tasks::TaskSet;

/// The power and the speeds of an assignment.
struct Assignment {
    power: u64,
    speeds: Vec<u64>,
}

/// All never-rising assignments of a platform.
pub struct Assignments<'a> {
    platform: &'a Platform,
    list: Vec<Assignment>,
}

impl<'a> Assignments<'a> {
    pub fn of(platform: &'a Platform) -> Self {
        let mut lists = vec![Vec::new()];
        for _ in 0..PROCESSORS {
            lists = lists.iter().flat_map(|levels| with_one_more(platform, levels)).collect();
        }
        let assignment = |levels: &Vec<usize>| Assignment {
            power: platform.total_power(levels),
            speeds: levels.iter().map(|&level| platform.speed(level)).collect(),
        };
        Assignments { platform, list: lists.iter().map(assignment).collect() }
    }

    /// The least power of any assignment that passes.
    pub fn least_power(&self, tasks: &TaskSet) -> Option<u64> {
        let falling = tasks.falling();
        let passes = |speeds: &[u64]| capacity::passes(&falling, speeds, self.platform.top());
        self.list.iter().filter(|assignment| passes(&assignment.speeds)).map(|assignment| assignment.power).min()
    }
}

/// The assignments that give one processor more a level, none above the last.
fn with_one_more(platform: &Platform, levels: &[usize]) -> Vec<Vec<usize>> {
    let highest = levels.last().copied().unwrap_or(platform.levels() - 1);
    (0..=highest).map(|level| [levels, &[level]].concat()).collect()
}
