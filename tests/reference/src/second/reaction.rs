//! Reaction times by another road: from each await node and source the runs are followed firing by
//! firing, and of all that stand at one node after equally many firings the least and the greatest time
//! are kept; those that reach an await node are done. Loops are told by the closed relation of paths.

use super::words::Words;
use super::{paths, Faults, ENTRY, NODE, NOTHING};
use crate::call::{Call, Outcome};
use std::collections::BTreeMap;

/// 32, 33 and 22, which come after the steps of the sheet; the length.
pub fn faults_and_times(
    call: &Call,
    net: &Words,
    sheet: &Words,
    faults: &mut Faults,
    left: &mut Outcome,
) -> Vec<u64> {
    let transitions = net.transitions();
    let durations: Vec<u64> = call.record.iter().map(|&word| u64::from(word)).collect();
    if durations.first() != Some(&transitions) || durations.len() as u64 != 2 * transitions + 1 {
        faults.note(true, 16, 32, NOTHING, 0);
        return vec![0];
    }
    let own = |t: u64| (durations[1 + t as usize], durations[(1 + transitions + t) as usize]);
    for t in 0..transitions {
        let (earliest, latest) = own(t);
        let wrong = earliest > 1_000_000 || latest > 1_000_000 || latest < earliest;
        faults.note(wrong, 16, 32, ENTRY, t);
    }
    let awaits = sheet.awaits(net);
    let busy = |n: &u64| !awaits.contains(n);
    let between: Vec<(u64, u64)> = sheet.arcs(net).into_iter().map(|(n, _, m)| (n, m)).collect();
    let between: Vec<(u64, u64)> =
        between.into_iter().filter(|(n, m)| busy(n) && busy(m)).collect();
    let arcs = between.iter().map(|&(n, m)| (n as usize, m as usize));
    let ways = paths::closure(sheet.nodes() as usize, arcs);
    for &(n, m) in &between {
        faults.note(ways[m as usize] >> n & 1 == 1, 17, 33, NODE, n);
    }
    if !faults.none() {
        return vec![0];
    }
    let mut times: Vec<u64> = Vec::new();
    for &n in &awaits {
        for t in sheet.offered(net, n) {
            let first = BTreeMap::from([(sheet.arc(net, n, t).unwrap_or(0), own(t))]);
            times.extend(followed(net, sheet, &awaits, &own, first));
        }
    }
    super::write(left, &times, faults);
    vec![times.len() as u64]
}

/// The least and the greatest time of those that get from some nodes, with the times so far, to an
/// await node.
fn followed(
    net: &Words,
    sheet: &Words,
    awaits: &[u64],
    own: &impl Fn(u64) -> (u64, u64),
    mut standing: BTreeMap<u64, (u64, u64)>,
) -> [u64; 2] {
    let mut done: Option<(u64, u64)> = None;
    let wider = |a: (u64, u64), b: (u64, u64)| (a.0.min(b.0), a.1.max(b.1));
    while !standing.is_empty() {
        let mut next: BTreeMap<u64, (u64, u64)> = BTreeMap::new();
        for (n, time) in standing {
            if awaits.contains(&n) {
                done = Some(done.map_or(time, |done| wider(done, time)));
                continue;
            }
            for t in sheet.offered(net, n) {
                let later = (time.0 + own(t).0, time.1 + own(t).1);
                let target = sheet.arc(net, n, t).unwrap_or(0);
                next.entry(target).and_modify(|met| *met = wider(*met, later)).or_insert(later);
            }
        }
        standing = next;
    }
    done.map_or([0, 0], |(best, worst)| [best, worst])
}
