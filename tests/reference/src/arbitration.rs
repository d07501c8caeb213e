//! Sheets on which arbitration tells (§5.1): transitions take the same, and another one draws on a
//! place of theirs.

use crate::call::{Call, Kind, Outcome};
use crate::model::{Net, Sheet};
use crate::tally::Tally;

/// How many sheets are torn at a node that offers all that take the same and nothing else, and how
/// many are accepted with a node that does not. By the clause that request #103 replaced those nodes
/// were right, and these sheets were torn.
#[derive(Default)]
pub struct Arbitration {
    torn: usize,
    accepted: usize,
}

impl Arbitration {
    pub fn count(&mut self, call: &Call, outcome: &Outcome) {
        let judges = call.kind.sheets() == 1 && call.kind != Kind::Trim;
        if !judges || ![0, 12].contains(&outcome.reply[0]) {
            return;
        }
        let Some(net) = Net::spread_out(&call.net) else {
            return;
        };
        let Ok(sheet) = Sheet::read(&net, &call.sheet) else {
            return;
        };
        let united = |node: usize| {
            let offered = sheet.offered(node);
            offered.first().map_or(false, |&t| offered == net.all_alike(t))
        };
        if outcome.reply[0] == 12 {
            self.torn += usize::from(united(outcome.reply[2] as usize));
        } else {
            self.accepted += usize::from(!(0..sheet.nodes()).all(united));
        }
    }

    pub fn line(&self) -> String {
        format!("arbitration: torn {} accepted {}", self.torn, self.accepted)
    }

    /// Each is met hundreds of times.
    pub fn check(&self, tally: &mut Tally) {
        println!("{}", self.line());
        tally.check(self.torn >= 200 && self.accepted >= 200, || "too few".to_string());
    }
}
