//! Every kind of damage: to a schedule before it becomes words, to words, and words that never were
//! a net or a sheet.

use super::rng::Rng;
use super::schedules::Schedule;
use super::variants::reordered;
use crate::model::MAX_WEIGHT;

/// Words at and next to the limits.
const EDGES: [u32; 16] = [
    0,
    1,
    2,
    31,
    32,
    33,
    127,
    128,
    129,
    4_095,
    4_096,
    4_097,
    1_000_000_000,
    1_000_000_001,
    4_294_967_294,
    4_294_967_295,
];

// ---- Damage to a schedule ----

/// One change that a clause of a schedule may forbid.
pub fn break_clause(rng: &mut Rng, schedule: &mut Schedule) {
    match rng.below(26) {
        0 => drop_arc(rng, schedule),
        1 => drop_all_arcs(rng, schedule),
        2 => add_arc(rng, schedule),
        3 => retarget(rng, schedule),
        4..=5 => retarget_alike(rng, schedule),
        6 => change_count(rng, schedule),
        7 => add_stray(rng, schedule),
        8..=11 => trap(rng, schedule),
        12..=13 => exchange_root(rng, schedule),
        14..=15 => offer_another_set(rng, schedule),
        16..=17 => take_more(rng, schedule),
        18 => put_otherwise(rng, schedule),
        19 => start_otherwise(rng, schedule),
        20 => copy_taken(rng, schedule),
        21..=23 => too_low(rng, schedule),
        24 => overfill(rng, schedule),
        _ => starve_sources(rng, schedule),
    }
}

/// One of the arcs, as node, transition and target.
fn some_arc(rng: &mut Rng, schedule: &Schedule) -> Option<(usize, usize, usize)> {
    rng.pick_any(&schedule.sheet.all_arcs())
}

fn some_node(rng: &mut Rng, schedule: &Schedule) -> usize {
    rng.below(schedule.sheet.nodes())
}

fn drop_arc(rng: &mut Rng, schedule: &mut Schedule) {
    if let Some((node, t, _)) = some_arc(rng, schedule) {
        schedule.sheet.arcs[node][t] = None;
    }
}

pub fn drop_all_arcs(rng: &mut Rng, schedule: &mut Schedule) {
    let node = some_node(rng, schedule);
    schedule.sheet.arcs[node].fill(None);
}

pub fn add_arc(rng: &mut Rng, schedule: &mut Schedule) {
    let (node, target) = (some_node(rng, schedule), some_node(rng, schedule));
    let t = rng.below(schedule.net.transitions());
    schedule.sheet.arcs[node][t] = Some(target);
}

pub fn retarget(rng: &mut Rng, schedule: &mut Schedule) {
    if let Some((node, t, _)) = some_arc(rng, schedule) {
        schedule.sheet.arcs[node][t] = Some(some_node(rng, schedule));
    }
}

/// Leads arcs to other nodes with the same counts, so that only reachability, the way to await or
/// what is allowed can change.
pub fn retarget_alike(rng: &mut Rng, schedule: &mut Schedule) {
    for _ in 0..rng.between(1, 4) {
        let Some((node, t, target)) = some_arc(rng, schedule) else {
            return;
        };
        let sheet = &mut schedule.sheet;
        let alike = |&m: &usize| sheet.counts[m] == sheet.counts[target];
        let choices: Vec<usize> = (0..sheet.nodes()).filter(alike).collect();
        sheet.arcs[node][t] = Some(rng.pick(&choices));
    }
}

pub fn change_count(rng: &mut Rng, schedule: &mut Schedule) {
    let node = if rng.chance(20) { 0 } else { some_node(rng, schedule) };
    let p = rng.below(schedule.net.places());
    let count = &mut schedule.sheet.counts[node][p];
    *count = match rng.below(4) {
        0 => *count + 1,
        1 => count.saturating_sub(1),
        2 => 0,
        _ => MAX_WEIGHT - *count,
    };
}

/// A copy of a node that no arc leads to.
pub fn add_stray(rng: &mut Rng, schedule: &mut Schedule) {
    let node = some_node(rng, schedule);
    let sheet = &mut schedule.sheet;
    sheet.arcs.push(sheet.arcs[node].clone());
    sheet.counts.push(sheet.counts[node].clone());
    if rng.chance(30) {
        let last = sheet.nodes() - 1;
        let mut order: Vec<usize> = (0..=last).collect();
        order.swap(rng.between(1, last), last);
        *sheet = reordered(sheet, &order);
    }
}

/// Leads an arc to a copy of its target that offers a busy choice set which keeps its counts, and
/// that leads to itself alone.
pub fn trap(rng: &mut Rng, schedule: &mut Schedule) {
    let Schedule { net, sheet } = schedule;
    let arcs = sheet.all_arcs();
    let spare = |&(_, _, m): &(usize, usize, usize)| {
        m == 0 || arcs.iter().filter(|arc| arc.2 == m).nth(1).is_some()
    };
    let spares: Vec<_> = arcs.iter().copied().filter(spare).collect();
    let Some((from, t, target)) = rng.pick_any(&spares) else {
        return;
    };
    let counts = sheet.counts[target].clone();
    let keeps = |&u: &usize| net.enabled(&counts, u) && net.fire(&counts, u) == counts;
    let busy = |&u: &usize| !net.is_source(u) && net.choice_set(u).iter().all(keeps);
    let choices: Vec<usize> = (0..net.transitions()).filter(busy).collect();
    let Some(chosen) = rng.pick_any(&choices) else {
        return;
    };
    let mut row = vec![None; net.transitions()];
    net.choice_set(chosen).into_iter().for_each(|u| row[u] = Some(sheet.nodes()));
    sheet.arcs[from][t] = Some(sheet.nodes());
    sheet.arcs.push(row);
    sheet.counts.push(counts);
}

pub fn exchange_root(rng: &mut Rng, schedule: &mut Schedule) {
    let sheet = &schedule.sheet;
    let alike = |&node: &usize| sheet.counts[node] == sheet.counts[0];
    let mut choices: Vec<usize> = (0..sheet.nodes()).filter(alike).collect();
    choices.push(some_node(rng, schedule));
    let mut order: Vec<usize> = (0..sheet.nodes()).collect();
    order.swap(0, rng.pick(&choices));
    schedule.sheet = reordered(&schedule.sheet, &order);
}

/// A node that offers some whole choice set, enabled or not, with arcs that may land well.
fn offer_another_set(rng: &mut Rng, schedule: &mut Schedule) {
    let Schedule { net, sheet } = schedule;
    let node = if rng.chance(30) { 0 } else { rng.below(sheet.nodes()) };
    let mut row = vec![None; net.transitions()];
    for t in net.choice_set(rng.below(net.transitions())) {
        let lands = |&m: &usize| {
            net.enabled(&sheet.counts[node], t)
                && net.fire(&sheet.counts[node], t) == sheet.counts[m]
        };
        row[t] = (0..sheet.nodes()).find(lands).or(Some(rng.below(sheet.nodes())));
    }
    sheet.arcs[node] = row;
}

/// A choice set takes more from a place and puts as much more back: the difference stays, what is
/// enabled does not.
fn take_more(rng: &mut Rng, schedule: &mut Schedule) {
    let Schedule { net, .. } = schedule;
    let (t, p) = (rng.below(net.transitions()), rng.below(net.places()));
    let more = if rng.chance(60) { 1 } else { rng.next() % MAX_WEIGHT };
    for member in net.choice_set(t) {
        net.taken[member][p] += more;
        net.put[member][p] += more;
    }
}

fn put_otherwise(rng: &mut Rng, schedule: &mut Schedule) {
    let net = &mut schedule.net;
    let (t, p) = (rng.below(net.transitions()), rng.below(net.places()));
    net.put[t][p] = rng.pick(&[0, 1, 2, net.put[t][p] + 1, MAX_WEIGHT]);
}

fn start_otherwise(rng: &mut Rng, schedule: &mut Schedule) {
    let net = &mut schedule.net;
    let p = rng.below(net.places());
    net.start[p] = rng.pick(&[0, 1, net.start[p] + 1, MAX_WEIGHT]);
}

/// A transition joins the choice set of another.
fn copy_taken(rng: &mut Rng, schedule: &mut Schedule) {
    let net = &mut schedule.net;
    let (t, like) = (rng.below(net.transitions()), rng.below(net.transitions()));
    net.taken[t] = net.taken[like].clone();
}

/// A capacity one below what is needed: where nothing is deducted for what is taken, some arc then
/// overfills the place, or it starts too full.
pub fn too_low(rng: &mut Rng, schedule: &mut Schedule) {
    let tight = |&p: &usize| schedule.needed(p) > 1;
    let places: Vec<usize> = (0..schedule.net.places()).filter(tight).collect();
    if let Some(p) = rng.pick_any(&places) {
        let most = schedule.needed(p).min(MAX_WEIGHT + 1) - 1;
        let low = 1 + rng.next() % most;
        schedule.net.capacity[p] = Some(if rng.chance(80) { most } else { low });
    }
}

/// A place that starts above its capacity, and maybe one behind it.
pub fn overfill(rng: &mut Rng, schedule: &mut Schedule) {
    let net = &mut schedule.net;
    for _ in 0..rng.between(1, 2) {
        let p = rng.below(net.places());
        let most = net.capacity[p].unwrap_or(1).min(MAX_WEIGHT - 1);
        net.capacity[p] = Some(most);
        net.start[p] = rng.pick(&[most, most + 1, most + 1, MAX_WEIGHT]);
    }
}

/// No transition takes nothing any more.
pub fn starve_sources(rng: &mut Rng, schedule: &mut Schedule) {
    let net = &mut schedule.net;
    let p = rng.below(net.places());
    for t in net.sources() {
        net.taken[t][p] = 1;
    }
}

// ---- Damage to words ----

/// One change to the words of a net (`header` 3) or of a sheet (`header` 2).
pub fn break_words(rng: &mut Rng, words: &mut Vec<u32>, header: usize) {
    if words.is_empty() {
        words.push(rng.pick(&EDGES));
        return;
    }
    let at = rng.below(words.len());
    match rng.below(20) {
        0 => words.truncate(at),
        1 => words.truncate(words.len() - 1),
        2 => words.push(rng.pick(&EDGES)),
        3 => words.extend(rng.words(3)),
        4 => words[at] ^= 1 << rng.below(32),
        5 => words[at] = rng.pick(&EDGES),
        6 => words[at] = words[at].wrapping_add(1),
        7 => words[at] = words[at].wrapping_sub(1),
        8 => words[at.min(header - 1)] = rng.pick(&EDGES),
        9 => words.swap(at, at.saturating_sub(1)),
        10 => words[at] = words[at.saturating_sub(1)],
        11 => words.swap(at, 0),
        12..=13 => break_entry(rng, words, header),
        14..=16 => break_key_and_value(rng, words, header),
        _ => break_value(rng, words, header),
    }
}

/// Takes an entry out or puts one in, K changed to match.
fn break_entry(rng: &mut Rng, words: &mut Vec<u32>, header: usize) {
    if words.len() < header + 2 {
        words.extend([rng.pick(&EDGES), rng.pick(&EDGES)]);
        words[header - 1] = 1;
        return;
    }
    let entries = (words.len() - header) / 2;
    let at = rng.below(entries);
    let (key, value) = (header + at, header + entries + at);
    if rng.chance(50) {
        words.remove(value);
        words.remove(key);
        words[header - 1] = entries as u32 - 1;
    } else {
        words.insert(value + 1, rng.pick(&[0, 1, words[value], MAX_WEIGHT as u32]));
        words.insert(key + 1, words[key].wrapping_add(rng.below(2) as u32));
        words[header - 1] = entries as u32 + 1;
    }
}

/// A key out of order or too large and a value out of its range, at one entry or at two.
fn break_key_and_value(rng: &mut Rng, words: &mut [u32], header: usize) {
    let entries = words.len().saturating_sub(header) / 2;
    if entries == 0 {
        return;
    }
    let at = rng.below(entries);
    let other = if rng.chance(40) { at } else { rng.below(entries) };
    let before = words[header + at.saturating_sub(1)];
    words[header + at] = rng.pick(&[0, before, before, u32::MAX]);
    words[header + entries + other] = rng.pick(&[0, MAX_WEIGHT as u32 + 1, u32::MAX]);
}

/// Swaps keys of a net so that they do not rise; how many are out of order is found by chance.
pub fn mix_keys(rng: &mut Rng, net: &mut [u32]) {
    let entries = net[2] as usize;
    for _ in 0..rng.below(2 * entries + 1) {
        net.swap(3 + rng.below(entries), 3 + rng.below(entries));
    }
}

/// Sets one of the weights or values to a limit or next to one.
fn break_value(rng: &mut Rng, words: &mut [u32], header: usize) {
    let first = words.len() - words.len().saturating_sub(header) / 2;
    if first < words.len() {
        let at = rng.between(first, words.len() - 1);
        words[at] = rng.pick(&[0, MAX_WEIGHT as u32, MAX_WEIGHT as u32 + 1, u32::MAX, words[0]]);
    }
}

// ---- Words at the limits ----

/// A net with every key from the second transition on, or with every key; sizes at and past the
/// limits.
pub fn net_at_limits(rng: &mut Rng) -> Vec<u32> {
    let p = rng.pick(&[0, 1, 2, 31, 32, 32, 33]);
    let t = rng.pick(&[0, 1, 2, 31, 32, 32, 33]);
    let end = (2 * t + 2) * p;
    let first = if rng.chance(70) { p.min(end) } else { 0 };
    let last = end + if rng.chance(20) { 1 } else { 0 };
    let mut words = vec![p, t, last - first];
    words.extend(first..last);
    words.extend((first..last).map(|_| rng.pick(&[1, MAX_WEIGHT as u32])));
    words
}

/// A sheet of that many nodes and entries, its keys rising from 0.
pub fn sheet_at_limits(rng: &mut Rng) -> Vec<u32> {
    let v = rng.pick(&[0, 1, 2, 127, 128, 128, 129, u32::MAX]);
    let k = rng.pick(&[0, 1, 64, 4_095, 4_096, 4_096, 4_097]);
    let mut words = vec![v, k];
    words.extend(0..k);
    words.extend((0..k).map(|_| rng.pick(&[0, 1])));
    words
}

/// Words that are no net and no sheet but by chance.
pub fn garbage(rng: &mut Rng) -> Vec<u32> {
    let length = if rng.chance(80) { rng.below(20) } else { rng.below(300) };
    let small = rng.between(1, 40);
    (0..length)
        .map(|_| match rng.below(4) {
            0 => rng.word(),
            1 => rng.pick(&EDGES),
            _ => rng.below(small) as u32,
        })
        .collect()
}
