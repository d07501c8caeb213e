//! One fault at a time, each as often as the others: of a net and of a sheet of it.

use super::rng::Rng;
use super::schedules::Schedule;
use super::{damage, stale};
use crate::model::MAX_WEIGHT;

/// What is done to the words or to the clauses of a net and a sheet, by the number that refuses it in
/// most.
const FAULTS: [u64; 21] =
    [1, 2, 3, 4, 5, 26, 6, 7, 8, 9, 10, 11, 12, 13, 14, 14, 15, 16, 17, 27, 27];

/// The words of a net and of a sheet with one fault of any kind.
pub fn any(rng: &mut Rng, schedule: &Schedule) -> (Vec<u32>, Vec<u32>) {
    let fault = rng.pick(&FAULTS);
    let mut broken = schedule.clone();
    match fault {
        5 => damage::starve_sources(rng, &mut broken),
        26 => damage::overfill(rng, &mut broken),
        10 => {
            let p = rng.below(broken.net.places());
            broken.sheet.counts[0][p] += 1;
        }
        11 => damage::drop_all_arcs(rng, &mut broken),
        12 => damage::add_arc(rng, &mut broken),
        13 => damage::exchange_root(rng, &mut broken),
        14 => stale::starve(rng, &mut broken),
        15 => damage::change_count(rng, &mut broken),
        16 => damage::add_stray(rng, &mut broken),
        17 => damage::trap(rng, &mut broken),
        27 => no_room(rng, &mut broken),
        _ => {}
    }
    let (mut net, mut sheet) = broken.words();
    match fault {
        1..=4 => break_words(rng, &mut net, 3, fault - 1),
        6..=9 => break_words(rng, &mut sheet, 2, fault - 6),
        _ => {}
    }
    (net, sheet)
}

/// A capacity that the start keeps and some arc does not.
fn no_room(rng: &mut Rng, schedule: &mut Schedule) {
    let fills = |&p: &usize| schedule.needed(p) > schedule.net.start[p].max(1);
    let places: Vec<usize> = (0..schedule.net.places()).filter(fills).collect();
    if let Some(p) = rng.pick_any(&places) {
        schedule.net.capacity[p] = Some((schedule.needed(p) - 1).min(MAX_WEIGHT));
    }
}

/// A length that is not what K says, a size out of its range, a key or a value out of its own.
fn break_words(rng: &mut Rng, words: &mut Vec<u32>, header: usize, fault: u64) {
    let entries = words.len() - header;
    let at = header + rng.below(entries.max(2)) / 2;
    match fault {
        0 if rng.chance(50) => words.push(1),
        0 => words.truncate(rng.below(words.len())),
        1 => words[rng.below(header)] = rng.pick(&[129, 4_097, u32::MAX]),
        2 if entries > 0 => words[at] = u32::MAX,
        3 if entries > 0 => words[at + entries / 2] = rng.pick(&[1_000_000_001, u32::MAX]),
        _ => {}
    }
}
