//! Two sheets of one net: variants of one that allow the same, others that do not, and damage in
//! each of the two.
//!
//! Two accepted sheets that allow the same lists and differ in counts cannot be made: every node of
//! either is reached by some list, the counts there are what that list makes of the net's start, and
//! the list leads to a node of the other as well, which has the same counts for the same reason.

use super::rng::Rng;
use super::schedules::{another_sheet, Schedule};
use super::{aimed, broken_clauses, damage, words};
use crate::model::{self, SCRATCH};

/// An accepted sheet of the same net: another one, one with more copies of nodes, or one whose arcs
/// lead to other nodes with the same counts.
pub fn sibling(rng: &mut Rng, schedule: &Schedule) -> Option<Schedule> {
    let mut other = schedule.clone();
    match rng.below(4) {
        0 => other.sheet = another_sheet(rng, &schedule.net).unwrap_or(other.sheet),
        1 => other = other.unrolled(rng),
        _ => damage::retarget_alike(rng, &mut other),
    }
    let (net, sheet) = other.words();
    (model::sheet_check(&net, &sheet, &mut [0; SCRATCH])[0] == 0).then_some(other)
}

/// The words of a net and of two sheets: accepted ones, or one of them damaged, or both, or the net.
pub fn any(rng: &mut Rng, schedule: &Schedule) -> (Vec<u32>, [Vec<u32>; 2]) {
    let other = match rng.below(12) {
        0 => schedule.clone(),
        1 => Schedule { sheet: schedule.sheet.minimal_form(), ..schedule.clone() },
        2 => schedule.renumbered(rng),
        3..=4 => schedule.unrolled(rng).renumbered(rng),
        _ => sibling(rng, schedule).unwrap_or(schedule.unrolled(rng)),
    };
    let (mut net, first) = schedule.words();
    let mut sheets = [first, other.words().1];
    match rng.below(20) {
        0..=9 => {}
        10..=12 => damage_one(rng, &[schedule, &other], &mut sheets),
        13..=14 => (0..2).for_each(|_| damage_one(rng, &[schedule, &other], &mut sheets)),
        // the second sheet is that of the net before the damage
        15..=18 => (net, sheets[0]) = aimed::any(rng, schedule),
        _ => (net, sheets[0]) = words(rng, schedule),
    }
    if rng.chance(50) {
        sheets.swap(0, 1);
    }
    (net, sheets)
}

/// Breaks a clause or the words of one of the sheets; of a broken clause the net stays as it was.
fn damage_one(rng: &mut Rng, whole: &[&Schedule; 2], sheets: &mut [Vec<u32>; 2]) {
    let at = rng.below(2);
    if rng.chance(70) {
        sheets[at] = broken_clauses(rng, whole[at]).1;
    } else {
        damage::break_words(rng, &mut sheets[at], 2);
    }
}
