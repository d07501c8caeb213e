//! Logs of firings: right ones of every length, each damage, and words that never were a log.

use super::rng::Rng;
use super::schedules::Schedule;
use super::{damage, stray_transition};
use crate::model::MAX_FIRINGS;

/// A log that the sheet says is right, or nearly.
pub fn any(rng: &mut Rng, schedule: &Schedule) -> Vec<u32> {
    let mut log = right(rng, schedule);
    match rng.below(10) {
        0..=4 => {}
        5..=7 => {
            for _ in 0..rng.between(1, 2) {
                break_firing(rng, schedule, &mut log);
            }
        }
        8 => break_shape(rng, &mut log),
        _ => {
            break_firing(rng, schedule, &mut log);
            break_shape(rng, &mut log);
        }
    }
    log
}

/// Firings that the sheet allows one after the other, with the nodes that they reach.
pub fn right(rng: &mut Rng, schedule: &Schedule) -> Vec<u32> {
    let most = MAX_FIRINGS as usize;
    let length = match rng.below(20) {
        0 => 0,
        1 => most,
        2 => rng.below(most),
        _ => rng.below(40),
    };
    followed(rng, schedule, length)
}

/// A log of so many firings from the root.
fn followed(rng: &mut Rng, schedule: &Schedule, length: usize) -> Vec<u32> {
    let (mut firings, mut named) = (vec![length as u32], Vec::new());
    let mut node = 0;
    for _ in 0..length {
        let t = rng.pick(&schedule.sheet.offered(node));
        node = schedule.sheet.arcs[node][t].unwrap_or(0);
        firings.push(t as u32);
        named.push(node as u32);
    }
    [firings, named].concat()
}

/// Another transition or another node at one firing, or both.
fn break_firing(rng: &mut Rng, schedule: &Schedule, log: &mut [u32]) {
    let firings = log.len() / 2;
    if firings == 0 {
        return;
    }
    let (i, nodes) = (rng.below(firings), schedule.sheet.nodes());
    let kind = rng.below(3);
    if kind != 0 {
        log[1 + firings + i] = match rng.below(4) {
            0 => nodes as u32,
            1 => rng.pick(&[128, u32::MAX, nodes as u32 + 1]),
            _ => rng.below(nodes) as u32,
        };
    }
    if kind != 1 {
        log[1 + i] = match rng.below(3) {
            0 => rng.below(schedule.net.transitions()) as u32,
            _ => stray_transition(rng, schedule),
        };
    }
}

/// Words that are no log: another N, another length, nothing, or garbage.
fn break_shape(rng: &mut Rng, log: &mut Vec<u32>) {
    match rng.below(8) {
        0 => log.clear(),
        1 => {
            log.pop();
        }
        2 => log.push(rng.word()),
        3 => log.truncate(rng.below(log.len())),
        4 => log[0] = rng.pick(&[log[0] + 1, log[0].wrapping_sub(1), 4_096, 4_097, u32::MAX]),
        5 => {
            // N and length agree, and N is one too large
            log[0] = MAX_FIRINGS as u32 + 1;
            log.resize(1 + 2 * (MAX_FIRINGS as usize + 1), 0);
        }
        // 1 + 2 × N comes round to 1 in 32 bits
        6 => *log = vec![0x8000_0000],
        _ => *log = damage::garbage(rng),
    }
}
