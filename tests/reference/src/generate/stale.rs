//! Sheets for mending: right arcs with stale counts, and arcs that no counts fit, over nets with
//! capacities of every kind.

use super::damage;
use super::rng::Rng;
use super::schedules::{crowded, Schedule};
use crate::model::MAX_WEIGHT;

/// The words of a net and of a sheet whose counts are not to be trusted, and whose arcs mostly are.
pub fn words(rng: &mut Rng, schedule: &Schedule) -> (Vec<u32>, Vec<u32>) {
    let mut schedule = schedule.clone();
    match rng.below(24) {
        0..=3 => {}
        5..=6 => schedule = schedule.capped(rng),
        7..=8 => starve(rng, &mut schedule),
        9..=11 => damage::retarget(rng, &mut schedule),
        4 | 12..=13 => lift_to_limit(rng, &mut schedule),
        14 => schedule = too_crowded(rng),
        15..=16 => damage::too_low(rng, &mut schedule),
        17 => damage::overfill(rng, &mut schedule),
        18..=20 => (0..rng.between(1, 2)).for_each(|_| damage::break_clause(rng, &mut schedule)),
        _ => {
            let (mut net, mut sheet) = (schedule.words().0, counted(rng, &schedule));
            if rng.chance(30) {
                damage::break_words(rng, &mut net, 3);
            }
            (0..rng.between(1, 2)).for_each(|_| damage::break_words(rng, &mut sheet, 2));
            return (net, sheet);
        }
    }
    (schedule.words().0, counted(rng, &schedule))
}

/// The words of the sheet's arcs with counts that are right, missing, made up, or right but for some.
pub fn counted(rng: &mut Rng, schedule: &Schedule) -> Vec<u32> {
    let sheet = &schedule.sheet;
    let right = sheet.counts.iter().flatten().map(|&count| (count > 0).then_some(count as u32));
    let mut counts: Vec<Option<u32>> = right.collect();
    match rng.below(8) {
        0 => {}
        1 => counts.fill(None),
        2 => counts.iter_mut().for_each(|count| *count = stale(rng)),
        _ => {
            for _ in 0..rng.between(1, 6) {
                let at = rng.below(counts.len());
                counts[at] = stale(rng);
            }
        }
    }
    let targets = sheet.arcs.iter().flatten().map(|target| target.map(|m| m as u32));
    let table: Vec<Option<u32>> = targets.chain(counts).collect();
    let keys: Vec<u32> =
        (0..table.len()).filter(|&key| table[key].is_some()).map(|key| key as u32).collect();
    let sizes = [sheet.nodes() as u32, keys.len() as u32];
    sizes.into_iter().chain(keys).chain(table.into_iter().flatten()).collect()
}

/// What may stand for a count.
fn stale(rng: &mut Rng) -> Option<u32> {
    let limit = MAX_WEIGHT as u32;
    rng.pick(&[None, None, Some(0), Some(1), Some(2), Some(limit), Some(limit + 1), Some(u32::MAX)])
}

/// A choice set that some node offers takes more from a place than the place holds there, or just one
/// more, and puts as much more back.
pub fn starve(rng: &mut Rng, schedule: &mut Schedule) {
    let Schedule { net, sheet } = schedule;
    let busy: Vec<_> = sheet.all_arcs().into_iter().filter(|arc| !net.is_source(arc.1)).collect();
    let Some((node, t, _)) = rng.pick_any(&busy) else {
        return;
    };
    let drawn: Vec<usize> = (0..net.places()).filter(|&p| net.taken[t][p] > 0).collect();
    let p = rng.pick(&drawn);
    let spare = sheet.counts[node][p] - net.taken[t][p];
    let more = if rng.chance(80) { spare + 1 } else { 1 };
    for member in net.choice_set(t) {
        net.taken[member][p] += more;
        net.put[member][p] += more;
    }
}

/// A place starts with so much that its greatest count is the limit, or one more; if it has a capacity,
/// that is the limit or none then.
fn lift_to_limit(rng: &mut Rng, schedule: &mut Schedule) {
    let Schedule { net, sheet } = schedule;
    let greatest = |p: usize| sheet.counts.iter().map(|counts| counts[p]).max().unwrap_or(0);
    let moving = |&p: &usize| greatest(p) > net.start[p];
    let places: Vec<usize> = (0..net.places()).filter(moving).collect();
    if let Some(p) = rng.pick_any(&places) {
        net.capacity[p] = net.capacity[p].map(|_| MAX_WEIGHT).filter(|_| rng.chance(70));
        net.start[p] += MAX_WEIGHT - greatest(p) + rng.below(2) as u64;
    }
}

/// 4,096 entries, and as many as there are nodes more, where there is room for another place.
fn too_crowded(rng: &mut Rng) -> Schedule {
    let mut schedule = crowded(rng);
    schedule.add_place(rng, 1);
    let counts = &mut schedule.sheet.counts;
    counts.iter_mut().flatten().for_each(|count| *count *= u64::from(rng.chance(50)));
    schedule
}
