//! A check of the exhaustive search: on small sets it must find what plain enumeration finds.

use crate::capacity;
use crate::exhaustive;
use crate::platforms::Platform;
use crate::random::Random;
use crate::tally::Tally;
use crate::tasks::{TaskSet, PERIOD};

const SETS: usize = 2_000;
const MOST_TASKS: u64 = 6;
const SEED: u64 = 0x0040_0002;

/// Every way to part four processors into pools. One without tasks runs at the lowest speed: no processor is left over.
const POOLS: [&[usize]; 5] = [&[4], &[3, 1], &[2, 2], &[2, 1, 1], &[1, 1, 1, 1]];

/// Compares the two on random sets. Some of them fit on no platform, and both must say so.
pub fn check(tally: &mut Tally) {
    let platforms = [Platform::first(), Platform::second(), Platform::quarters()];
    let mut random = Random::new(SEED);
    for index in 0..SETS {
        // Every second set is in twelfths, as the speeds are: there equality decides.
        let unit = if index % 2 == 0 { 1 } else { PERIOD / 12 };
        let count = random.between(1, MOST_TASKS);
        let costs = (0..count).map(|_| random.between(1, PERIOD / unit) * unit).collect();
        let tasks = TaskSet { costs };
        for platform in &platforms {
            let (found, least) = (exhaustive::least_power(platform, &tasks), least_power(platform, &tasks));
            let name = || format!("{}: {found:?}, enumerated {least:?}, for {:?}", platform.name, tasks.costs);
            tally.check(found == least, name);
        }
    }
}

/// Tries every placement of the tasks on every row of pools.
fn least_power(platform: &Platform, tasks: &TaskSet) -> Option<u64> {
    let falling = tasks.falling();
    let placements = |pools: &[usize]| pools.len().pow(falling.len() as u32);
    let power = |pools, placement| placement_power(platform, &falling, pools, placement);
    POOLS.iter().flat_map(|&pools| (0..placements(pools)).filter_map(move |placement| power(pools, placement))).min()
}

/// The placement's digits, in base the number of pools, are the pools of the tasks.
fn placement_power(platform: &Platform, falling: &[u64], pools: &[usize], mut placement: usize) -> Option<u64> {
    let mut placed = vec![Vec::new(); pools.len()];
    for &cost in falling {
        placed[placement % pools.len()].push(cost);
        placement /= pools.len();
    }
    pools.iter().zip(&placed).map(|(&processors, costs)| pool_power(platform, costs, processors)).sum()
}

/// The lowest speed is found by the capacity tests, and not by the largest task and the sum, as the search does it.
fn pool_power(platform: &Platform, falling: &[u64], processors: usize) -> Option<u64> {
    let carries = |&level: &usize| {
        let speeds = vec![platform.speed(level); processors];
        capacity::passes(falling, &speeds, platform.top())
    };
    let level = (0..platform.levels()).find(carries)?;
    Some(processors as u64 * platform.power[level])
}
