//! Seeded calls of every kind: accepted nets and sheets, damaged ones, words at the limits and
//! garbage, with walkers, records and buffers that fit or do not.

pub mod aimed;
pub mod damage;
pub mod durations;
pub mod logs;
pub mod rng;
pub mod schedules;
pub mod stale;
pub mod tasks;
pub mod twins;
pub mod unreached;
pub mod variants;

use crate::call::{Call, Kind, OPERATIONS};
use crate::model::{Net, Walker, FORM, LINES, MAX_WEIGHT, PANEL, SCRATCH};
use crate::text::Case;
use rng::Rng;
use schedules::{net_words, Schedule};

/// An accepted pair of any family and any variation.
pub fn schedule(rng: &mut Rng) -> Schedule {
    let first = schedules::any(rng);
    variants::varied(rng, first)
}

/// A net of any sizes with weights and capacities found by chance, of which some rows have none;
/// there may be no source, and places that start above their capacities.
pub fn net(rng: &mut Rng) -> Net {
    let (places, transitions) = (rng.between(1, LINES), rng.between(1, LINES));
    let (density, idle) = (rng.below(101), rng.below(60));
    let mut row = || -> Vec<u64> {
        let percent = if rng.chance(idle) { 0 } else { density };
        let mut weight = || u64::from(rng.chance(percent)) * (rng.next() % MAX_WEIGHT + 1);
        (0..places).map(|_| weight()).collect()
    };
    let taken = (0..transitions).map(|_| row()).collect();
    let put = (0..transitions).map(|_| row()).collect();
    let start = row();
    let capacity = row().iter().map(|&most| (most > 0).then_some(most)).collect();
    let mut net = Net { taken, put, start, capacity };
    if rng.chance(60) {
        let higher = |(most, start): (Option<u64>, &u64)| most.map(|most| most.max(*start));
        net.capacity = net.capacity.into_iter().zip(&net.start).map(higher).collect();
    }
    net
}

/// The words of a net and of a sheet, made from an accepted pair: as they are, with a sheet that
/// tears no set of those that take the same, with one to three damages, or one of the two replaced.
pub fn words(rng: &mut Rng, schedule: &Schedule) -> (Vec<u32>, Vec<u32>) {
    if schedule.net.is_arbitrated() && rng.chance(40) {
        return united(rng, schedule);
    }
    match rng.below(20) {
        0..=7 => schedule.words(),
        8..=13 => broken_clauses(rng, schedule),
        14..=16 => {
            let (mut net, mut sheet) =
                if rng.chance(70) { schedule.words() } else { broken_clauses(rng, schedule) };
            for _ in 0..rng.between(1, 2) {
                if rng.chance(40) {
                    damage::break_words(rng, &mut net, 3);
                } else {
                    damage::break_words(rng, &mut sheet, 2);
                }
            }
            (net, sheet)
        }
        _ => replaced(rng, schedule),
    }
}

fn broken_clauses(rng: &mut Rng, schedule: &Schedule) -> (Vec<u32>, Vec<u32>) {
    let mut broken = schedule.clone();
    let damages = if rng.chance(60) { 1 } else { rng.between(2, 3) };
    for _ in 0..damages {
        damage::break_clause(rng, &mut broken);
    }
    broken.words()
}

/// The net with a sheet whose nodes offer all that take the same, though these may be no choice set.
fn united(rng: &mut Rng, schedule: &Schedule) -> (Vec<u32>, Vec<u32>) {
    let (net, sheet) = schedule.words();
    (net, schedules::united_sheet(rng, &schedule.net).map_or(sheet, |united| united.words()))
}

/// An accepted pair of which one has given way to words at the limits, to garbage, to a net found
/// by chance or to nothing.
fn replaced(rng: &mut Rng, schedule: &Schedule) -> (Vec<u32>, Vec<u32>) {
    let (good_net, good_sheet) = schedule.words();
    match rng.below(12) {
        0..=2 => (damage::net_at_limits(rng), good_sheet),
        3..=5 => (good_net, damage::sheet_at_limits(rng)),
        6 => (net_words(&net(rng)), good_sheet),
        7 => (damage::garbage(rng), good_sheet),
        8 => (good_net, damage::garbage(rng)),
        9 => (damage::garbage(rng), damage::garbage(rng)),
        10 => (Vec::new(), good_sheet),
        _ => (good_net, Vec::new()),
    }
}

/// A case of any operation that the program `calls` plays.
pub fn case(rng: &mut Rng) -> Case {
    if rng.chance(95) {
        return Case::Call(call(rng, OPERATIONS));
    }
    let net = if rng.chance(50) { net(rng) } else { schedule(rng).net };
    let mut words = net_words(&net);
    let (t, p) = place_asked(rng, &net, &words);
    match rng.below(15) {
        0 => words.truncate(rng.below(words.len())),
        1 => words[rng.below(2)] = rng.pick(&[0, 33, u32::MAX]),
        2..=5 => (0..rng.between(1, 4)).for_each(|_| damage::break_words(rng, &mut words, 3)),
        6..=8 => damage::mix_keys(rng, &mut words),
        _ => {}
    }
    Case::Weights { net: words, transition: t as u32, place: p as u32 }
}

/// A transition and a place: those of an entry, or any, or one that there is not.
fn place_asked(rng: &mut Rng, net: &Net, words: &[u32]) -> (usize, usize) {
    let entries = words[2] as usize;
    if entries == 0 || rng.chance(40) {
        return (rng.below(net.transitions() + 2), rng.below(net.places() + 2));
    }
    let key = words[3 + rng.below(entries)] as usize;
    (key / net.places() % net.transitions(), key % net.places())
}

/// A call of any of the kinds. Where some kinds are left out, the cases of all others stay. The plain
/// engine's are not made here: they are those of the sheet check.
pub fn call(rng: &mut Rng, kinds: &[Kind]) -> Call {
    let mut kind = rng.pick(&Kind::ALL);
    while kind == Kind::Plain || !kinds.contains(&kind) {
        kind = rng.pick(&Kind::ALL);
    }
    let mut call = match kind {
        Kind::Compose => composition(rng),
        Kind::React => reaction(rng),
        Kind::Compare => comparison(rng),
        _ => of_one_sheet(rng, kind),
    };
    call.scratch = scratch(rng, SCRATCH);
    if kind.on_panel() && rng.chance(25) {
        call.panel = true;
        call.scratch = scratch(rng, PANEL);
    }
    call
}

/// A call that composes a sheet from those of tasks, with a buffer that holds it in most.
fn composition(rng: &mut Rng) -> Call {
    let tasks::Handed { net, number, mut sheets } = tasks::handed(rng);
    let mut call = Call::new(Kind::Compose, &net, &sheets.remove(0));
    (call.number, call.others) = (number, sheets);
    roomy_buffers(rng, &mut call);
    call
}

/// A call that asks for reaction times, with a buffer that holds them in most.
fn reaction(rng: &mut Rng) -> Call {
    let schedule = durations::timed(rng);
    let (net, sheet) = match rng.below(20) {
        0..=12 => schedule.words(),
        13..=16 => aimed::any(rng, &schedule),
        _ => words(rng, &schedule),
    };
    let mut call = Call::new(Kind::React, &net, &sheet);
    call.record = durations::any(rng, &schedule.net);
    roomy_buffers(rng, &mut call);
    call
}

/// A call that compares two sheets, with buffers that hold what is needed in most.
fn comparison(rng: &mut Rng) -> Call {
    let schedule = schedule(rng);
    let (net, [first, second]) = twins::any(rng, &schedule);
    let mut call = Call::new(Kind::Compare, &net, &first);
    call.others[0] = second;
    roomy_buffers(rng, &mut call);
    call
}

/// A call of a kind that reads a net alone, or one sheet, and maybe a record or a log.
fn of_one_sheet(rng: &mut Rng, kind: Kind) -> Call {
    let schedule = schedule(rng);
    let (mut net_part, sheet_part) = match kind {
        Kind::Mend if rng.chance(80) => stale::words(rng, &schedule),
        Kind::Trim => unreached::any(rng, &schedule),
        _ => words(rng, &schedule),
    };
    if !kind.reads_sheet() && rng.chance(30) {
        net_part = net_words(&net(rng));
        if rng.chance(50) {
            damage::break_words(rng, &mut net_part, 3);
        }
    }
    let mut call = Call::new(kind, &net_part, &sheet_part);
    call.record = match kind {
        Kind::Replay => logs::any(rng, &schedule),
        _ => record(rng, &schedule),
    };
    call.walker = walker(rng, &schedule);
    call.transition = transition(rng, &schedule, call.walker[0]);
    let needed = match kind {
        Kind::PlaceBounds | Kind::Run => schedule.net.places(),
        Kind::ShortForm => schedule.sheet.minimal_form().words().len(),
        _ => 0,
    };
    call.out = buffer(rng, needed);
    if matches!(kind, Kind::Mend | Kind::Trim) {
        roomy_buffers(rng, &mut call);
    }
    call.sums = [0, 1].map(|_| sums(rng, schedule.net.places()));
    call
}

/// Transitions that the sheet allows one after the other, or nearly.
pub fn record(rng: &mut Rng, schedule: &Schedule) -> Vec<u32> {
    let length = match rng.below(10) {
        0 => 0,
        1 => rng.below(2_000),
        _ => rng.below(40),
    };
    let mut node = 0;
    let mut record = Vec::new();
    for _ in 0..length {
        let t = rng.pick(&schedule.sheet.offered(node));
        node = schedule.sheet.arcs[node][t].unwrap_or(0);
        record.push(t as u32);
    }
    if rng.chance(30) && length > 0 {
        let at = rng.below(length);
        record[at] = stray_transition(rng, schedule);
    }
    record
}

/// A number that may be no transition of the net; T + t is what a careless reader takes for an arc
/// of the next node.
pub(crate) fn stray_transition(rng: &mut Rng, schedule: &Schedule) -> u32 {
    let transitions = schedule.net.transitions();
    match rng.below(4) {
        0 => rng.word(),
        1 => u32::MAX,
        _ => rng.below(3 * transitions) as u32,
    }
}

/// A walker that stands at a node of the sheet with its counts, or nearly.
fn walker(rng: &mut Rng, schedule: &Schedule) -> Walker {
    let node = rng.below(schedule.sheet.nodes());
    let mut walker = [0; 1 + LINES];
    walker[0] = node as u32;
    for (word, &count) in walker[1..].iter_mut().zip(&schedule.sheet.counts[node]) {
        *word = count as u32;
    }
    let nodes = schedule.sheet.nodes() as u32;
    match rng.below(12) {
        0 => walker[0] = nodes,
        1 => walker[0] = rng.pick(&[nodes + 1, 128, u32::MAX]),
        2 => walker[0] = rng.below(nodes as usize) as u32,
        3 => walker[rng.between(1, LINES)] ^= 1 << rng.below(32),
        4 => walker[LINES] = walker[LINES].wrapping_add(1),
        _ => {}
    }
    walker
}

/// A transition that the walker's node offers, or nearly.
fn transition(rng: &mut Rng, schedule: &Schedule, node: u32) -> u32 {
    if rng.chance(25) || node as usize >= schedule.sheet.nodes() {
        return stray_transition(rng, schedule);
    }
    rng.pick(&schedule.sheet.offered(node as usize)) as u32
}

/// An output buffer that holds what is needed, or one word less, or other lengths.
fn buffer(rng: &mut Rng, needed: usize) -> Vec<u32> {
    let length = lent(rng, needed);
    rng.words(length)
}

/// The output buffers of a call that answers lengths.
fn roomy_buffers(rng: &mut Rng, call: &mut Call) {
    let lengths = call.lengths();
    [call.out, call.list] = lengths.map(|needed| roomy(rng, needed));
}

/// One of these, long enough in most.
fn roomy(rng: &mut Rng, needed: usize) -> Vec<u32> {
    let length = if rng.chance(80) { needed + rng.below(3) } else { lent(rng, needed) };
    rng.words(length)
}

/// One of a replay's two buffers, long enough in most.
fn sums(rng: &mut Rng, places: usize) -> Vec<u64> {
    let length = if rng.chance(75) { places + rng.below(3) } else { lent(rng, places) };
    (0..length).map(|_| rng.next()).collect()
}

fn lent(rng: &mut Rng, needed: usize) -> usize {
    match rng.below(8) {
        0 => needed.saturating_sub(1),
        1 => 0,
        2 => rng.below(needed + 1),
        3 => needed + 1,
        4 => needed + rng.below(40),
        5 => FORM,
        _ => needed,
    }
}

/// Scratch of as many words as are asked, or one less, or one more, or others, never cleared.
fn scratch(rng: &mut Rng, asked: usize) -> Vec<u32> {
    let length = match rng.below(20) {
        0 => asked - 1,
        1 => rng.below(asked),
        2 => asked + 1,
        3..=4 => asked + 8,
        5 => SCRATCH,
        _ => asked,
    };
    rng.words(length)
}
