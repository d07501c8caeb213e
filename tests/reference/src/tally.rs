//! What passed and what failed, and how often each number was answered.

use crate::call::{Call, Kind, Outcome};
use std::collections::{BTreeMap, BTreeSet};

/// The numbers that some of the calls answer.
pub fn numbers(kinds: impl IntoIterator<Item = Kind>) -> BTreeSet<u64> {
    kinds.into_iter().flat_map(Kind::numbers).collect()
}

/// Failures told in full; the rest are only counted.
const TOLD: usize = 10;

#[derive(Default)]
pub struct Tally {
    pub passed: usize,
    pub failed: usize,
}

impl Tally {
    /// Counts a check; tells what went wrong where it failed.
    pub fn check(&mut self, right: bool, what: impl FnOnce() -> String) {
        if right {
            self.passed += 1;
            return;
        }
        self.failed += 1;
        if self.failed <= TOLD {
            println!("FAILED {}", what());
        }
    }

    /// Counts a check that two things are equal.
    pub fn same<T: PartialEq + std::fmt::Debug>(&mut self, what: &str, is: T, should: T) {
        let right = is == should;
        self.check(right, || format!("{what}\n  is     {is:?}\n  should {should:?}"));
    }
}

/// How often each call answered each number.
#[derive(Default)]
pub struct Table(BTreeMap<(u64, Kind), usize>);

impl Table {
    pub fn count(&mut self, call: &Call, outcome: &Outcome) {
        *self.0.entry((outcome.reply[0], call.kind)).or_insert(0) += 1;
    }

    pub fn times(&self, number: u64) -> usize {
        Kind::ALL.iter().map(|&kind| self.cell(number, kind)).sum()
    }

    pub fn cell(&self, number: u64, kind: Kind) -> usize {
        self.0.get(&(number, kind)).copied().unwrap_or(0)
    }

    /// A line for each number, a column for each call.
    pub fn print(&self) {
        let head: String = Kind::ALL.iter().map(|kind| format!("{:>8}", kind.name())).collect();
        println!("number{head}     all");
        for number in numbers(Kind::ALL) {
            let cells: String =
                Kind::ALL.iter().map(|&kind| format!("{:>8}", self.cell(number, kind))).collect();
            println!("{number:>6}{cells}{:>8}", self.times(number));
        }
    }
}
