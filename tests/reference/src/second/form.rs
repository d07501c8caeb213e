//! The short form by crossing out the pairs of nodes that differ.

use super::words::Words;
use std::collections::BTreeMap;

/// The words of the short form of a schedule; of nodes that become one the lowest stands for all.
pub fn short_form(net: &Words, sheet: &Words) -> Vec<u64> {
    let nodes = sheet.nodes() as usize;
    let targets: Vec<Vec<usize>> = (0..nodes as u64)
        .map(|n| {
            let target = |t| sheet.arc(net, n, t).map(|m| m as usize);
            sheet.offered(net, n).into_iter().filter_map(target).collect()
        })
        .collect();
    let differ = differing(net, sheet, &targets);
    let lowest = |n: usize| (0..nodes).find(|&m| !differ[n][m]).unwrap_or(n);
    let mut order = vec![0];
    let mut seen = 0;
    while let Some(&node) = order.get(seen) {
        for target in targets[node].iter().map(|&m| lowest(m)) {
            if !order.contains(&target) {
                order.push(target);
            }
        }
        seen += 1;
    }
    let number = |node: u64| order.iter().position(|&m| m == lowest(node as usize));
    encoded(net, sheet, &order, number)
}

/// The pairs of nodes whose counts or offers differ, or two of whose targets do.
fn differing(net: &Words, sheet: &Words, targets: &[Vec<usize>]) -> Vec<Vec<bool>> {
    let look = |n: usize| (sheet.counts(net, n as u64), sheet.offered(net, n as u64));
    let looks: Vec<_> = (0..targets.len()).map(look).collect();
    let mut differ: Vec<Vec<bool>> =
        looks.iter().map(|a| looks.iter().map(|b| a != b).collect()).collect();
    loop {
        let mut found = Vec::new();
        for n in 0..targets.len() {
            for m in (0..targets.len()).filter(|&m| !differ[n][m]) {
                if targets[n].iter().zip(&targets[m]).any(|(&i, &j)| differ[i][j]) {
                    found.push((n, m));
                }
            }
        }
        if found.is_empty() {
            return differ;
        }
        found.into_iter().for_each(|(n, m)| differ[n][m] = true);
    }
}

/// The words of a sheet whose nodes are those of `order`, with the numbers that `number` gives.
fn encoded(
    net: &Words,
    sheet: &Words,
    order: &[usize],
    number: impl Fn(u64) -> Option<usize>,
) -> Vec<u64> {
    let (nodes, arcs) = (order.len() as u64, order.len() as u64 * net.transitions());
    let mut values = BTreeMap::new();
    for (new, old) in (0..nodes).zip(order.iter().map(|&old| old as u64)) {
        for t in sheet.offered(net, old) {
            let target = sheet.arc(net, old, t).and_then(&number).unwrap_or(0);
            values.insert(new * net.transitions() + t, target as u64);
        }
        for p in (0..net.places()).filter(|&p| sheet.count(net, old, p) > 0) {
            values.insert(arcs + new * net.places() + p, sheet.count(net, old, p));
        }
    }
    let sizes = [nodes, values.len() as u64];
    sizes.into_iter().chain(values.keys().copied()).chain(values.values().copied()).collect()
}
