//! The exhaustive search: every partition of the tasks into groups, each with processors of its own at one speed.

use crate::platforms::{Platform, PROCESSORS};
use crate::tasks::TaskSet;

/// Stands for a group that no speed carries. It is above any power, and sums with it are held there.
const NEVER: u64 = u64::MAX;

/// A power for each number of processors, 0 to all.
type ByProcessors = [u64; PROCESSORS + 1];

/// The least total power of any partition, where one passes. Processors without tasks run at the lowest speed.
///
/// A set of tasks is a number with a bit for each. In a partition of the set its first task is in some group, and the
/// other groups are a partition of what is left. That is a smaller number, whose best is known by then; so all
/// partitions are weighed without being spelt out.
pub fn least_power(platform: &Platform, tasks: &TaskSet) -> Option<u64> {
    let alone = groups(platform, &tasks.costs);
    let mut best: Vec<ByProcessors> = vec![[NEVER; PROCESSORS + 1]; alone.len()];
    best[0] = std::array::from_fn(|processors| processors as u64 * platform.power[0]);
    for set in 1..alone.len() {
        let first = set & set.wrapping_neg();
        let others = set ^ first;
        let mut rest = others;
        let mut least = [NEVER; PROCESSORS + 1];
        loop {
            take_lesser(&mut least, &alone[set ^ rest], &best[rest]);
            if rest == 0 {
                break;
            }
            // The next smaller part of the others; what is not in it is in the first task's group.
            rest = (rest - 1) & others;
        }
        best[set] = least;
    }
    best.last().map(|powers| powers[PROCESSORS]).filter(|&power| power != NEVER)
}

/// For every number of processors: a share of them for the group, the remainder for the rest.
fn take_lesser(least: &mut ByProcessors, group: &ByProcessors, rest: &ByProcessors) {
    for processors in 1..=PROCESSORS {
        for share in 1..=processors {
            let power = group[share].saturating_add(rest[processors - share]);
            least[processors] = least[processors].min(power);
        }
    }
}

/// The power of every set of tasks as one group, on each number of processors.
fn groups(platform: &Platform, costs: &[u64]) -> Vec<ByProcessors> {
    let mut sizes = vec![(0, 0)];
    for &cost in costs {
        let with: Vec<(u64, u64)> = sizes.iter().map(|&(largest, sum)| (cost.max(largest), sum + cost)).collect();
        sizes.extend(with);
    }
    let power = |largest, sum, processors| match processors {
        0 => NEVER,
        _ => platform
            .level_for(largest, sum, processors)
            .map_or(NEVER, |level| processors as u64 * platform.power[level]),
    };
    sizes.iter().map(|&(largest, sum)| std::array::from_fn(|processors| power(largest, sum, processors))).collect()
}
