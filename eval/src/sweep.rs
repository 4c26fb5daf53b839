//! All task sets on one platform: the four algorithms, and what must hold between them on every set.

use crate::optimal::Assignments;
use crate::platforms::Platform;
use crate::report::{Powers, Report, Sums};
use crate::tally::Tally;
use crate::tasks::{Group, TaskSet};
use crate::{dif, exhaustive, gmf, timed};

pub fn run<'a>(platform: &'a Platform, groups: &[Group], tally: &mut Tally) -> Result<Report<'a>, String> {
    let sets: Vec<&TaskSet> = groups.iter().flat_map(|group| &group.sets).collect();
    let powers = powers(platform, &sets)?;
    for (tasks, powers) in sets.iter().zip(&powers) {
        check(platform, tasks, powers, tally);
    }
    let sums = |powers: &[Powers]| powers.iter().map(Sums::from).sum();
    let in_groups = powers.chunks(sets.len() / groups.len());
    let rows = groups.iter().zip(in_groups).map(|(group, powers)| (group.total, sums(powers))).collect();
    Ok(Report { platform, rows })
}

/// One algorithm after the other, so that each has its own time.
fn powers(platform: &Platform, sets: &[&TaskSet]) -> Result<Vec<Powers>, String> {
    let all = |name: &str, algorithm: &dyn Fn(&TaskSet) -> Result<u64, String>| -> Result<Vec<u64>, String> {
        timed(&format!("{}, {name}", platform.name), || sets.iter().map(|tasks| algorithm(tasks)).collect())
    };
    // Every set is within the processors' capacity, so that each algorithm must find something.
    let found = |power: Option<u64>| power.ok_or_else(|| format!("{}: a set without an assignment", platform.name));

    let gmf = all("GMF", &|tasks| gmf::plan(platform, tasks).map(|plan| plan.power))?;
    let dif = all("DIF", &|tasks| found(dif::levels(platform, tasks).map(|levels| platform.total_power(&levels))))?;
    let exhaustive = all("Exhaustive", &|tasks| found(exhaustive::least_power(platform, tasks)))?;
    let assignments = Assignments::of(platform);
    let optimal = all("Optimal", &|tasks| found(assignments.least_power(tasks)))?;

    let of_set =
        |set: usize| Powers { dif: dif[set], exhaustive: exhaustive[set], gmf: gmf[set], optimal: optimal[set] };
    Ok((0..sets.len()).map(of_set).collect())
}

/// GMF is the optimum. A partition that passes is an assignment that passes, and DIF's is one of the partitions.
fn check(platform: &Platform, tasks: &TaskSet, powers: &Powers, tally: &mut Tally) {
    let claims = [
        (powers.gmf == powers.optimal, "GMF differs from Optimal"),
        (powers.optimal <= powers.exhaustive, "Optimal is above Exhaustive"),
        (powers.exhaustive <= powers.dif, "Exhaustive is above DIF"),
    ];
    for (holds, otherwise) in claims {
        tally.check(holds, || format!("{}: {otherwise}: {powers:?} for {:?}", platform.name, tasks.costs));
    }
}
