//! Durations of transitions, right ones and each damage, and sheets on which they tell: long chains,
//! ways that part and meet, and loops that avoid every await node though a way leads out.

use super::rng::Rng;
use super::schedules::{ring, Schedule};
use super::{damage, schedule};
use crate::model::{Net, MAX_DURATION};

/// An accepted sheet of any family, or one of those below.
pub fn timed(rng: &mut Rng) -> Schedule {
    match rng.below(10) {
        0 => chain(rng),
        1..=3 => parted(rng),
        4 => looped(rng),
        _ => schedule(rng),
    }
}

/// One await node and a chain of up to 127 busy ones.
fn chain(rng: &mut Rng) -> Schedule {
    let nodes = if rng.chance(60) { 128 } else { rng.between(1, 128) };
    let waits: Vec<bool> = (0..nodes).map(|node| node == 0).collect();
    ring(&waits, rng.between(1, 2)).renumbered(rng)
}

/// Busy nodes with several ways, each forward or to the root, so that there is no loop of busy nodes.
fn parted(rng: &mut Rng) -> Schedule {
    let schedule = forward(rng);
    schedule.renumbered(rng)
}

fn forward(rng: &mut Rng) -> Schedule {
    let (nodes, percent) = (rng.pick(&[3, 4, 6, 12, 40, 128]), rng.pick(&[0, 10, 50]));
    let waits: Vec<bool> = (0..nodes).map(|node| node == 0 || rng.chance(percent)).collect();
    let mut schedule = ring(&waits, rng.between(2, 3));
    for (node, row) in schedule.sheet.arcs.iter_mut().enumerate() {
        for target in row.iter_mut().flatten().skip(1) {
            *target = rng.between(node + 1, nodes.min(node + 4)) % nodes;
        }
    }
    schedule
}

/// The same with a way back: to the node itself, to the one before or to any.
fn looped(rng: &mut Rng) -> Schedule {
    let mut schedule = forward(rng);
    let Schedule { net, sheet } = &mut schedule;
    let busy: Vec<usize> = (0..sheet.nodes()).filter(|&node| !sheet.is_await(net, node)).collect();
    if let Some(node) = rng.pick_any(&busy) {
        let any = rng.below(node + 1);
        let back = rng.pick(&[node, node - 1, any]);
        sheet.arcs[node].iter_mut().flatten().skip(1).for_each(|target| *target = back);
    }
    schedule.renumbered(rng)
}

/// The words of durations for a net, of which some are damaged.
pub fn any(rng: &mut Rng, net: &Net) -> Vec<u32> {
    let mut words = right(rng, net.transitions());
    match rng.below(20) {
        0..=14 => {}
        15..=17 => (0..rng.between(1, 2)).for_each(|_| damage_one(rng, &mut words)),
        18 => break_shape(rng, &mut words),
        _ => {
            damage_one(rng, &mut words);
            break_shape(rng, &mut words);
        }
    }
    words
}

/// Zero, a few seconds, or up to the limit; with a span or without.
fn right(rng: &mut Rng, transitions: usize) -> Vec<u32> {
    let most = rng.pick(&[0, 1, 9, MAX_DURATION as usize, MAX_DURATION as usize]);
    let (mut earliest, mut latest) = (Vec::new(), Vec::new());
    let percent = rng.pick(&[0, 50, 100]);
    for _ in 0..transitions {
        let late = if rng.chance(30) { most } else { rng.below(most + 1) };
        let early = if rng.chance(percent) { late } else { rng.below(late + 1) };
        earliest.push(early as u32);
        latest.push(late as u32);
    }
    [vec![transitions as u32], earliest, latest].concat()
}

/// One transition's durations above the limit, or the earliest above the latest.
fn damage_one(rng: &mut Rng, words: &mut [u32]) {
    let transitions = words.len() / 2;
    let early = 1 + rng.below(transitions);
    let late = early + transitions;
    match rng.below(4) {
        0 => words[late] = rng.pick(&[MAX_DURATION as u32 + 1, u32::MAX]),
        1 => words[early] = rng.pick(&[MAX_DURATION as u32 + 1, u32::MAX]),
        2 => words[early] = words[late].saturating_add(1),
        _ => words.swap(early, late),
    }
}

/// Words that are no durations: another T, another length, nothing, or garbage.
fn break_shape(rng: &mut Rng, words: &mut Vec<u32>) {
    match rng.below(7) {
        0 => words.clear(),
        1 => {
            words.pop();
        }
        2 => words.push(rng.word()),
        3 => words.truncate(rng.below(words.len())),
        4 => words[0] = rng.pick(&[words[0] + 1, words[0] - 1, u32::MAX]),
        // one transition more or less, and the length to match
        5 => *words = right(rng, (words.len() / 2) ^ 1),
        _ => *words = damage::garbage(rng),
    }
}
