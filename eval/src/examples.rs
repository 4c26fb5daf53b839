//! Document 004's own examples, in quarters under the cube law, and the platforms' power tables.

use crate::optimal::Assignments;
use crate::platforms::Platform;
use crate::tally::Tally;
use crate::tasks::{TaskSet, PERIOD};
use crate::{dif, exhaustive, gmf};

/// The fifth utilisation, in hundredths, and the power of the best partition.
struct Example {
    fifth: u64,
    exhaustive: u64,
}

/// The four utilisations that both examples have, in hundredths.
const FIRST_FOUR: [u64; 4] = [100, 90, 60, 50];
/// Table II has the speeds 1, 1, 0.75 and 0.5, table III 1, 1, 0.75 and 0.75. No other four cubes have these sums, so
/// that the power says the speeds.
const EXAMPLES: [Example; 2] =
    [Example { fifth: 10, exhaustive: 64 + 64 + 27 + 8 }, Example { fifth: 25, exhaustive: 64 + 64 + 27 + 27 }];

pub fn check(tally: &mut Tally) {
    let tables = [(Platform::first(), vec![18, 48, 100]), (Platform::second(), vec![392, 768, 1936, 3920, 7350])];
    for (platform, table) in tables {
        tally.check(platform.power == table, || format!("{}: power {:?}", platform.name, platform.power));
    }
    EXAMPLES.iter().for_each(|example| check_example(example, tally));
}

fn check_example(example: &Example, tally: &mut Tally) {
    let quarters = Platform::quarters();
    let costs: Vec<u64> = FIRST_FOUR.iter().chain([&example.fifth]).map(|part| part * PERIOD / 100).collect();
    let tasks = TaskSet { costs };
    let mut expect = |holds: bool, name: &str| {
        tally.check(holds, || format!("document 004's example with u5 {} hundredths: {name}", example.fifth));
    };

    // Table I has the speeds for u5 = 0.1. For 0.25 the light tasks need 1.35 / 2, which is at most 0.75 as well.
    expect(dif::heavy_tasks(&tasks.falling()) == 2, "heavy tasks of DIF");
    expect(dif::levels(&quarters, &tasks) == Some(vec![3, 3, 2, 2]), "levels of DIF");
    expect(exhaustive::least_power(&quarters, &tasks) == Some(example.exhaustive), "power of the exhaustive search");
    // Section III: GMF ends at 1, 1, 0.75 and 0.5 for both.
    let plan = gmf::Plan { levels: vec![3, 3, 2, 1], power: 163, raises: 9 };
    expect(gmf::plan(&quarters, &tasks) == Ok(plan), "plan of GMF");
    expect(Assignments::of(&quarters).least_power(&tasks) == Some(163), "power of the optimum");
}
