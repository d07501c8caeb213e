//! What the small panel's calls were lent and what they answered: §1.12, §10.20.

use crate::call::{Call, Kind, Outcome};
use crate::tally::{numbers, Tally};
use std::collections::BTreeMap;

/// How many of the panel's calls of each kind were lent each length of scratch, and how many
/// answered each number.
#[derive(Default)]
pub struct OnPanel {
    lent: BTreeMap<(Kind, usize), usize>,
    answered: BTreeMap<(Kind, u64), usize>,
}

/// A word less than is asked for, as many, one more, and what the other calls ask for.
const LENGTHS: [usize; 4] = [1_023, 1_024, 1_025, 8_192];

impl OnPanel {
    pub fn count(&mut self, call: &Call, outcome: &Outcome) {
        if call.panel {
            *self.lent.entry((call.kind, call.scratch.len())).or_insert(0) += 1;
            *self.answered.entry((call.kind, outcome.reply[0])).or_insert(0) += 1;
        }
    }

    fn lent(&self, kind: Kind, length: usize) -> usize {
        self.lent.get(&(kind, length)).copied().unwrap_or(0)
    }

    fn answers(&self, kind: Kind, number: u64) -> bool {
        self.answered.contains_key(&(kind, number))
    }

    /// Each call that borrows scratch, and no other, is there with each length and with 0 and 21; each
    /// number is answered.
    pub fn check(&self, tally: &mut Tally) {
        for kind in Kind::ALL {
            let (name, has) = (kind.name(), kind.on_panel());
            let lent = LENGTHS.map(|length| self.lent(kind, length));
            if has {
                println!("{name} on the panel, with scratch of {LENGTHS:?}: {lent:?}");
            }
            tally.check(lent.iter().all(|&times| (times > 0) == has), || {
                format!("{name} on the panel was lent {LENGTHS:?} {lent:?} times")
            });
            tally.check([0, 21].iter().all(|&number| self.answers(kind, number) == has), || {
                format!("{name} on the panel: 0 and 21")
            });
        }
        for number in numbers(Kind::ALL.into_iter().filter(|kind| kind.on_panel())) {
            tally.check(Kind::ALL.iter().any(|&kind| self.answers(kind, number)), || {
                format!("number {number} was never answered on the panel")
            });
        }
        for number in [22, 25, 26] {
            tally.check(self.answers(Kind::Mend, number), || {
                format!("number {number} of mending on the panel")
            });
        }
    }
}
