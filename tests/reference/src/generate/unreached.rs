//! Sheets for trimming: nodes that no list of firings reaches, of every kind, among those that some
//! list does, and sheets that are no schedules besides.

use super::rng::Rng;
use super::schedules::{crowded, Schedule};
use super::variants::reordered;
use super::{aimed, broken_clauses, damage, words};
use crate::model::{Sheet, MAX_NODES, MAX_WEIGHT};

/// The words of a net and of a sheet.
pub fn any(rng: &mut Rng, schedule: &Schedule) -> (Vec<u32>, Vec<u32>) {
    let mut schedule = schedule.clone();
    match rng.below(20) {
        0 => {}
        1..=7 => add_unreached(rng, &mut schedule.sheet),
        8 => lone_root(rng, &mut schedule.sheet),
        9..=10 => (0..rng.between(1, 4)).for_each(|_| damage::retarget(rng, &mut schedule)),
        11..=13 => {
            add_unreached(rng, &mut schedule.sheet);
            return broken_clauses(rng, &schedule);
        }
        14 => {
            schedule = crowded(rng);
            cut(rng, &mut schedule.sheet);
        }
        15..=16 => return words(rng, &schedule),
        _ => return aimed::any(rng, &schedule),
    }
    schedule.words()
}

/// More nodes, to which no arc of those before leads, with any numbers but the root's.
fn add_unreached(rng: &mut Rng, sheet: &mut Sheet) {
    let (before, most) = (sheet.nodes(), MAX_NODES as usize);
    if before == most {
        return cut(rng, sheet);
    }
    let room = rng.pick(&[1, 2, 5, most]).min(most - before);
    let nodes = before + rng.between(1, room);
    for node in before..nodes {
        let like = rng.below(before);
        let (mut row, mut counts) = (sheet.arcs[like].clone(), sheet.counts[like].clone());
        match rng.below(6) {
            // points to what is reached
            0 => {}
            // to itself, or back to the first of those that are not reached
            1 => row.iter_mut().flatten().for_each(|target| *target = node),
            2 => row.iter_mut().flatten().for_each(|target| *target = before),
            3 => row.fill(None),
            _ => row.iter_mut().for_each(|target| {
                *target = rng.chance(50).then(|| rng.below(nodes));
            }),
        }
        if rng.chance(30) {
            counts.iter_mut().for_each(|count| *count = rng.pick(&[0, 0, 1, MAX_WEIGHT]));
        }
        sheet.arcs.push(row);
        sheet.counts.push(counts);
    }
    let mut order = rng.order(nodes);
    order.retain(|&node| node != 0);
    order.insert(0, 0);
    *sheet = reordered(sheet, &order);
}

/// 128 nodes of which the root alone is reached, from which arcs lead to itself or none at all.
fn lone_root(rng: &mut Rng, sheet: &mut Sheet) {
    let none = rng.chance(30);
    for target in &mut sheet.arcs[0] {
        *target = target.filter(|_| !none).map(|_| 0);
    }
    while sheet.nodes() < MAX_NODES as usize {
        let like = rng.below(sheet.nodes());
        let mut row = sheet.arcs[like].clone();
        row.iter_mut().flatten().for_each(|target| *target = (*target + 1) % (like + 1));
        sheet.arcs.push(row);
        sheet.counts.push(vec![u64::from(rng.chance(50)); sheet.counts[0].len()]);
    }
}

/// Leads the arcs of some nodes to one, so that what lies between is reached no more.
fn cut(rng: &mut Rng, sheet: &mut Sheet) {
    for _ in 0..rng.between(1, 3) {
        let (node, target) = (rng.below(sheet.nodes()), rng.below(sheet.nodes()));
        sheet.arcs[node].iter_mut().flatten().for_each(|to| *to = target);
    }
}
