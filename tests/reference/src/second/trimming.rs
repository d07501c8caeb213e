//! Trimming by another road: what is reached is told by the closed relation of all paths, and the words
//! are written key by key from those given, each moved by the nodes that are gone before it.

use super::words::Words;
use super::{paths, sheet_faults, Faults, NOTHING};
use crate::call::Outcome;
use crate::model::MAX_WEIGHT;

/// Steps 6 to 9, then 22; the two lengths.
pub fn faults_and_sheet(
    net: &Words,
    words: &[u32],
    faults: &mut Faults,
    left: &mut Outcome,
) -> Vec<u64> {
    let Some(sheet) = sheet_faults(net, words, (1, MAX_WEIGHT), faults) else {
        return vec![0; 2];
    };
    let arcs = sheet.arcs(net).into_iter().map(|(n, _, m)| (n as usize, m as usize));
    let from_root = paths::closure(sheet.nodes() as usize, arcs)[0];
    let stays = |n: u64| from_root >> n & 1 == 1;
    let gone_before = |n: u64| (0..n).filter(|&m| !stays(m)).count() as u64;
    let nodes = sheet.nodes() - gone_before(sheet.nodes());
    let (places, transitions) = (net.places(), net.transitions());
    let (mut keys, mut values) = (Vec::new(), Vec::new());
    for i in 0..words[1] as usize {
        let [key, value] = [words[2 + i], words[2 + words[1] as usize + i]].map(u64::from);
        let rows = sheet.nodes() * transitions;
        let (n, arc) =
            if key < rows { (key / transitions, true) } else { ((key - rows) / places, false) };
        if !stays(n) {
            continue;
        }
        let before = gone_before(n);
        if arc {
            keys.push(key - before * transitions);
            values.push(value - gone_before(value));
        } else {
            keys.push(key - rows + nodes * transitions - before * places);
            values.push(value);
        }
    }
    let sizes = [nodes, keys.len() as u64];
    let trimmed: Vec<u64> = sizes.into_iter().chain(keys).chain(values).collect();
    let list: Vec<u64> = (0..sheet.nodes()).filter(|&n| stays(n)).collect();
    for (out, words) in [(&mut left.out, &trimmed), (&mut left.list, &list)] {
        faults.note(out.len() < words.len(), 19, 22, NOTHING, 0);
        out.iter_mut().zip(words).for_each(|(to, &word)| *to = word as u32);
    }
    vec![trimmed.len() as u64, list.len() as u64]
}
