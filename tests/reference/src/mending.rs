//! What the counts of mended sheets were before (§10.16), and why others cannot be mended (§7.25).

use crate::call::{Call, Kind, Outcome};
use crate::model::{Misfit, Net, Sheet};
use crate::tally::Tally;
use std::collections::BTreeMap;

/// How many mended sheets had a count of each sort, and how many are refused by 25 for each reason.
#[derive(Default)]
pub struct Mending(BTreeMap<&'static str, usize>);

/// Each of them. In the last ones before the reasons a capacity is filled, is never filled, and is
/// below a count that was given; the last reason is that of capacities alone.
const SORTS: [&str; 15] = [
    "same", "changed", "dropped", "added", "zero", "greatest", "tight", "slack", "above",
    "starved", "overfull", "unequal", "count", "entries", "capacity",
];

impl Mending {
    pub fn count(&mut self, call: &Call, outcome: &Outcome) {
        if call.kind != Kind::Mend || ![0, 25].contains(&outcome.reply[0]) {
            return;
        }
        let Some(net) = Net::spread_out(&call.net) else {
            return;
        };
        let Ok(given) = Sheet::read_arcs(&net, &call.sheet) else {
            return;
        };
        match given.mended(&net) {
            Ok(mended) => {
                self.sorts(&net, &call.sheet, &given, &mended);
                self.rooms(&net, &given, &mended);
            }
            Err(Misfit::Starved) => self.add("starved"),
            Err(Misfit::Overfull) => self.add("overfull"),
            Err(Misfit::Unequal) => self.add("unequal"),
            Err(Misfit::Count) => self.add("count"),
            Err(Misfit::Entries) => self.add("entries"),
        }
        if outcome.reply[0] == 25 && given.mended(&uncapped(&net)).is_ok() {
            self.add("capacity");
        }
    }

    fn add(&mut self, sort: &'static str) {
        *self.0.entry(sort).or_insert(0) += 1;
    }

    /// Counts each sort once for a sheet.
    fn sorts(&mut self, net: &Net, words: &[u32], given: &Sheet, mended: &Sheet) {
        let counts = |sheet: &Sheet| sheet.counts.iter().flatten().copied().collect::<Vec<u64>>();
        let pairs: Vec<(u64, u64)> = counts(given).into_iter().zip(counts(mended)).collect();
        let any = |test: fn(u64, u64) -> bool| pairs.iter().any(|&(old, new)| test(old, new));
        // the values of counts as they stand, since an absent one reads as 0 too
        let (entries, arcs) = (words[1] as usize, given.nodes() * net.transitions());
        let written = |value: u32| {
            (0..entries).any(|i| words[2 + i] as usize >= arcs && words[2 + entries + i] == value)
        };
        for (sort, met) in [
            ("same", !any(|old, new| old != new)),
            ("changed", any(|old, new| old != new && old > 0 && new > 0)),
            ("dropped", any(|old, new| old == 0 && new > 0)),
            ("added", any(|old, new| old > 0 && new == 0)),
            ("zero", written(0)),
            ("greatest", written(u32::MAX)),
        ] {
            if met {
                self.add(sort);
            }
        }
    }

    /// The same of capacities.
    fn rooms(&mut self, net: &Net, given: &Sheet, mended: &Sheet) {
        let room = |p: usize, count: u64| net.capacity[p].map(|most| most.checked_sub(count));
        let left = |(node, t, _): (usize, usize, usize)| -> Vec<u64> {
            let put = (0..net.places()).filter(|&p| net.put[t][p] > 0);
            put.filter_map(|p| room(p, mended.counts[node][p] + net.put[t][p])?).collect()
        };
        let left: Vec<u64> = mended.all_arcs().into_iter().flat_map(left).collect();
        let above = |counts: &Vec<u64>| (0..net.places()).any(|p| !net.holds_at_most(p, counts[p]));
        for (sort, met) in [
            ("tight", left.contains(&0)),
            ("slack", !left.is_empty() && !left.contains(&0)),
            ("above", given.counts.iter().any(above)),
        ] {
            if met {
                self.add(sort);
            }
        }
    }

    pub fn line(&self) -> String {
        let told = |sort: &&str| format!(" {sort} {}", self.0.get(sort).unwrap_or(&0));
        format!("mending:{}", SORTS.iter().map(told).collect::<String>())
    }

    /// Each is met several times.
    pub fn check(&self, tally: &mut Tally) {
        println!("{}", self.line());
        for sort in SORTS {
            let met = *self.0.get(sort).unwrap_or(&0);
            tally.check(met >= 4, || format!("mending: {sort} was met {met} times"));
        }
    }
}

/// The net without its capacities.
fn uncapped(net: &Net) -> Net {
    Net { capacity: vec![None; net.places()], ..net.clone() }
}
