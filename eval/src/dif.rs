//! DecideIndependentFrequency, from document 004's section II: heavy tasks have a processor each, and the light ones
//! share the others, which have one speed.

use crate::platforms::{Platform, PROCESSORS};
use crate::tasks::TaskSet;

/// The level of every processor, the heavy tasks' first; none where a task or the pool needs more than the top speed.
pub fn levels(platform: &Platform, tasks: &TaskSet) -> Option<Vec<usize>> {
    let falling = tasks.falling();
    let heavy = heavy_tasks(&falling);
    let (alone, light) = falling.split_at(heavy);
    let pool = PROCESSORS - heavy;
    // An empty pool has neither a largest task nor a sum, and gets the lowest speed.
    let largest = light.first().copied().unwrap_or(0);
    let pool_level = platform.level_for(largest, light.iter().sum(), pool)?;
    let mut levels = alone.iter().map(|&cost| platform.level_for(cost, cost, 1)).collect::<Option<Vec<usize>>>()?;
    levels.resize(PROCESSORS, pool_level);
    Some(levels)
}

/// How many of the tasks, never rising, are heavy: larger than the sum of the tasks still light, this one among them,
/// over the processors not yet given away. That is never so on the last processor, so that the pool always has one.
pub fn heavy_tasks(falling: &[u64]) -> usize {
    let mut light: u64 = falling.iter().sum();
    let mut processors = PROCESSORS as u64;
    let mut heavy = 0;
    for &cost in falling {
        if cost * processors <= light {
            break;
        }
        light -= cost;
        processors -= 1;
        heavy += 1;
    }
    heavy
}
