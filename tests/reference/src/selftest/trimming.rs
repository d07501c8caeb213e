//! What holds of trimmed sheets (request #109): they allow what they did, keep what every node that
//! stays had, and are accepted exactly where every clause but reachability holds of these nodes.

use super::{generate, second, Call, Kind, Net, Rng, Sheet, Tally, SCHEDULES, SEED};

pub fn check(tally: &mut Tally) {
    let mut met = [0, 0];
    for index in 0..SCHEDULES {
        let rng = &mut Rng::for_case(SEED + 4, index);
        let schedule = generate::schedule(rng);
        let (net, words) = generate::unreached::any(rng, &schedule);
        let call = Call::new(Kind::Trim, &net, &words);
        let is = call.put();
        if is.reply[0] != 0 {
            continue;
        }
        let Some(net) = Net::spread_out(&net) else {
            continue;
        };
        let (sheet, old) = (Sheet::read(&net, &words), call.listed(&is));
        let trimmed = Sheet::read(&net, call.result(&is));
        let (Ok(sheet), Ok(trimmed)) = (sheet, trimmed) else {
            tally.check(false, || format!("no sheet: {}", call.text()));
            continue;
        };
        tally.check(keeps(&sheet, &trimmed, old), || format!("keeps: {}", call.text()));
        tally.check(second::paths::same_language(&sheet, 0, &trimmed, 0), || {
            format!("allows: {}", call.text())
        });
        let accepted = Call::new(Kind::SheetCheck, &call.net, call.result(&is)).put().reply[0] == 0;
        let holds = clauses(&net, &sheet, old);
        met[usize::from(accepted)] += 1;
        tally.check(accepted == holds, || format!("accepted is {accepted}: {}", call.text()));
        let again = Call::new(Kind::Trim, &call.net, call.result(&is));
        let twice = again.put();
        tally.check(again.result(&twice) == call.result(&is), || format!("twice: {}", call.text()));
    }
    println!("trimmed sheets that are accepted: {}, that are not: {}", met[1], met[0]);
    tally.check(met.iter().all(|&met| met > 100), || "too few trimmed sheets".to_string());
}

/// The old numbers rise from the root's, and each node has the counts and the arcs that it had.
fn keeps(sheet: &Sheet, trimmed: &Sheet, old: &[u32]) -> bool {
    let old: Vec<usize> = old.iter().map(|&node| node as usize).collect();
    let moved = |node: usize| {
        let row = trimmed.arcs[node].iter().map(|target| target.map(|m| old[m]));
        row.eq(sheet.arcs[old[node]].iter().copied())
            && trimmed.counts[node] == sheet.counts[old[node]]
    };
    old.len() == trimmed.nodes()
        && old.first() == Some(&0)
        && old.windows(2).all(|pair| pair[0] < pair[1])
        && (0..old.len()).all(moved)
}

/// Every clause of a schedule but reachability (§6.2 to §6.6 and §6.8), asked of some nodes of a sheet
/// as it was given.
fn clauses(net: &Net, sheet: &Sheet, kept: &[u32]) -> bool {
    let arcs = sheet.all_arcs().into_iter().map(|(n, _, m)| (n, m));
    let ways = second::paths::closure(sheet.nodes(), arcs);
    let awaits: Vec<usize> = (0..sheet.nodes()).filter(|&n| sheet.is_await(net, n)).collect();
    let right = |node: usize| {
        let offered = sheet.offered(node);
        let counts = &sheet.counts[node];
        let lands = |&t: &usize| {
            let target = sheet.arcs[node][t].unwrap_or(0);
            net.enabled(counts, t) && net.fire(counts, t) == sheet.counts[target]
        };
        offered.first().map_or(false, |&t| offered == net.choice_set(t))
            && offered.iter().all(lands)
            && awaits.iter().any(|&m| ways[node] >> m & 1 == 1)
    };
    sheet.counts[0] == net.start
        && sheet.is_await(net, 0)
        && kept.iter().all(|&node| right(node as usize))
}
