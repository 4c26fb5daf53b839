//! The capacity tests of document 004's equation 1, as document 01 writes them.

use crate::tasks::PERIOD;

/// Whether tasks of these costs, never rising, fit on processors of these speeds, never rising. Both sides are
/// multiplied by the period and the top speed, so that nothing is rounded.
pub fn passes(falling: &[u64], speeds: &[u64], top: u64) -> bool {
    let (mut work, mut supply) = (0, 0);
    for (cost, speed) in falling.iter().zip(speeds).take(speeds.len() - 1) {
        work += top * cost;
        supply += PERIOD * speed;
        if work > supply {
            return false;
        }
    }
    top * falling.iter().sum::<u64>() <= PERIOD * speeds.iter().sum::<u64>()
}
