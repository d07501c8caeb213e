//! The worked examples, §14.2 to §14.8 and §14.16, with their answers, and logs whose replay is told by hand.

mod comparison;
mod composition;
mod reaction;
mod trimming;

use crate::call::{Call, Kind};
use crate::generate::rng::Rng;
use crate::generate::schedules::{crowded, net_words, nine_nodes, ring};
use crate::model::{self, Net, Sheet, FORM, LIST, SCRATCH};
use crate::program::printed;
use crate::tally::Tally;

const A: &str = "1 2 2 1 2 1 1";

/// The table of §14.3: net, sheet, the sheet check's plain numbers.
const STARRED: [(&str, &str, [u64; 6]); 13] = [
    ("1 1 0", "1 1 0 0", [0, 0, 0, 1, 1, 1]),
    (A, "2 3 0 3 5 1 0 1", [0, 0, 0, 2, 2, 1]),
    (A, "4 6 0 3 4 7 9 11 1 2 3 0 1 1", [0, 0, 0, 4, 4, 2]),
    (A, "1 0", [11, 3, 0, 0, 0, 0]),
    (A, "2 2 0 3 1 0", [15, 1, 0, 0, 0, 0]),
    (A, "3 4 0 3 4 7 1 0 1 1", [16, 3, 2, 0, 0, 0]),
    ("1 3 3 1 2 3 1 1 1", "2 3 0 4 7 1 0 1", [12, 3, 1, 0, 0, 0]),
    ("1 3 3 1 2 3 1 1 1", "2 4 0 4 5 7 1 0 0 1", [0, 0, 0, 2, 3, 1]),
    ("1 2 3 1 2 3 1 1 1", "2 3 0 3 5 1 1 1", [17, 3, 1, 0, 0, 0]),
    ("1 2 2 1 2 2 1", "2 3 0 3 5 1 0 1", [14, 1, 1, 0, 0, 0]),
    ("1 2 3 1 3 4 1 1 1", "1 2 1 2 0 1", [13, 3, 0, 0, 0, 0]),
    ("1 2 3 1 2 4 1 1 16777216", "2 4 0 3 4 5 1 0 16777216 16777217", [0, 0, 0, 2, 2, 1]),
    ("1 2 3 1 2 4 1 1 16777216", "2 4 0 3 4 5 1 0 16777216 16777216", [15, 1, 0, 0, 0, 0]),
];

/// §14.7. Transition 3 takes more from the place of 1 and 2, or the same; in the last two it takes
/// from another place too, or from that one alone.
const ARBITRATED: [(&str, &str, [u64; 6]); 5] = [
    ("1 4 4 1 2 3 4 1 1 2 1", "2 4 0 5 6 9 1 0 0 1", [12, 3, 1, 0, 0, 0]),
    ("1 4 4 1 2 3 4 1 1 2 1", "2 3 0 5 9 1 0 1", [0, 0, 0, 2, 2, 1]),
    ("1 4 4 1 2 3 4 1 1 1 1", "2 5 0 5 6 7 9 1 0 0 0 1", [0, 0, 0, 2, 4, 1]),
    ("2 4 6 2 4 6 7 8 17 1 1 1 1 1 1", "2 6 0 5 6 9 10 11 1 0 0 1 1 1", [12, 3, 1, 0, 0, 0]),
    ("2 4 5 2 4 7 8 17 1 1 1 1 1", "2 6 0 5 6 9 10 11 1 0 0 1 1 1", [0, 0, 0, 2, 3, 1]),
];

/// §14.8: net, sheet, the mended sheet, the list of changes.
const MENDED: [(&str, &str, &str, &str); 7] = [
    (A, "2 3 0 3 5 1 0 1", "2 3 0 3 5 1 0 1", "0"),
    (A, "2 2 0 3 1 0", "2 3 0 3 5 1 0 1", "1 1 1"),
    (A, "2 4 0 3 4 5 1 0 0 4294967295", "2 3 0 3 5 1 0 1", "1 1 1"),
    (A, "2 4 0 3 4 5 1 0 7 1", "2 3 0 3 5 1 0 1", "1 0 0"),
    (A, "2 4 0 3 4 5 1 0 7 0", "2 3 0 3 5 1 0 1", "2 0 1 0 1"),
    (
        "2 3 4 2 5 6 9 1 2 1 2",
        "3 5 0 4 8 11 13 1 2 0 1 2",
        "3 5 0 4 8 11 14 1 2 0 1 2",
        "2 4 5 0 2",
    ),
    (
        "1 2 3 1 2 4 1 1 999999999",
        "2 2 0 3 1 0",
        "2 4 0 3 4 5 1 0 999999999 1000000000",
        "2 0 1 999999999 1000000000",
    ),
];

/// §14.8: net, sheet, the number, kind and position. In the last five no counts fit: one is starved,
/// one has a loop that fills, one passes the limit, in one two ways to a node put differently, and in one
/// the counts come out right where a transition is not enabled.
const NOT_MENDED: [(&str, &str, [u64; 3]); 16] = [
    ("1 1", "2 2 0 3 1 0", [1, 0, 0]),
    (A, "2", [6, 0, 0]),
    (A, "129 0", [7, 0, 0]),
    (A, "2 3 0 3 6 1 0 1", [8, 1, 2]),
    (A, "2 4 0 3 5 5 1 0 1 1", [8, 1, 3]),
    (A, "2 3 0 3 5 2 0 0", [9, 1, 0]),
    (A, "1 0", [11, 3, 0]),
    ("1 3 3 1 2 3 1 1 1", "2 2 0 4 1 0", [12, 3, 1]),
    ("1 2 3 1 3 4 1 1 1", "1 1 1 0", [13, 3, 0]),
    (A, "3 4 0 3 4 6 1 0 1 0", [16, 3, 2]),
    ("1 2 3 1 2 3 1 1 1", "2 2 0 3 1 1", [17, 3, 1]),
    ("1 2 2 1 2 2 1", "2 2 0 3 1 0", [25, 0, 0]),
    (A, "1 1 0 0", [25, 0, 0]),
    ("1 2 3 1 2 4 1 1 1000000000", "2 2 0 3 1 0", [25, 0, 0]),
    ("1 3 3 2 3 4 1 1 2", "2 3 0 1 5 1 1 0", [25, 0, 0]),
    ("1 2 3 1 2 3 2 1 1", "2 2 0 3 1 0", [25, 0, 0]),
];

/// The first table of §14.16, of nets with capacities.
const CAPPED: [(&str, &str, [u64; 6]); 11] = [
    ("1 2 3 1 2 5 1 1 1", "2 3 0 3 5 1 0 1", [0, 0, 0, 2, 2, 1]),
    ("1 2 3 1 2 5 1 2 1", "2 3 0 3 5 1 0 2", [27, 1, 0, 0, 0, 0]),
    ("1 2 3 1 2 5 1 2 1", "2 3 0 3 5 1 0 1", [27, 1, 0, 0, 0, 0]),
    ("1 2 4 1 2 3 5 2 1 3 3", "2 3 0 3 5 1 0 1", [14, 1, 1, 0, 0, 0]),
    ("1 2 4 1 2 3 5 1 1 1 1", "2 3 0 3 5 1 1 1", [27, 1, 1, 0, 0, 0]),
    ("1 2 4 1 2 3 5 1 1 1 2", "2 3 0 3 5 1 1 1", [17, 3, 1, 0, 0, 0]),
    ("1 2 3 1 2 5 1 1 1", "3 5 0 3 5 7 8 1 0 1 1 2", [16, 3, 2, 0, 0, 0]),
    ("1 2 4 1 2 4 5 1 1 2 1", "1 2 0 2 0 2", [26, 2, 0, 0, 0, 0]),
    ("1 2 4 1 2 4 5 1 1 1 1", "1 2 0 2 0 1", [27, 1, 0, 0, 0, 0]),
    ("1 3 5 1 2 3 5 7 1 1 1 1 1", "2 4 0 4 5 7 1 0 1 1", [27, 1, 2, 0, 0, 0]),
    ("1 1 3 1 2 3 1000000000 1000000000 1000000000", "1 2 0 1 0 1000000000", [27, 1, 0, 0, 0, 0]),
];

/// The second table of §14.16: what is mended, with just enough room.
const CAPPED_MENDED: [(&str, &str, &str, &str); 4] = [
    ("1 2 3 1 2 5 1 1 1", "2 4 0 3 4 5 1 0 7 9", "2 3 0 3 5 1 0 1", "2 0 1 0 1"),
    ("1 2 3 1 2 5 2 2 2", "2 2 0 3 1 0", "2 3 0 3 5 1 0 2", "1 1 2"),
    ("1 3 5 1 2 3 4 7 1 1 1 1 2", "2 3 0 4 5 1 1 0", "2 4 0 4 5 7 1 1 0 1", "1 1 1"),
    ("1 2 4 1 2 4 5 1 1 1 2", "2 2 0 3 1 0", "2 4 0 3 4 5 1 0 1 2", "2 0 1 1 2"),
];

/// And what is not. In the first three no counts fit, since a transition has no room; then a place
/// starts above its capacity, in the last of a net without a source.
const CAPPED_NOT_MENDED: [(&str, &str, [u64; 3]); 5] = [
    ("1 2 3 1 2 5 2 2 1", "2 2 0 3 1 0", [25, 0, 0]),
    ("1 3 5 1 2 3 4 7 1 1 1 1 1", "2 3 0 4 5 1 1 0", [25, 0, 0]),
    ("1 2 4 1 2 4 5 1 1 1 1", "2 2 0 3 1 0", [25, 0, 0]),
    ("1 2 4 1 2 4 5 1 1 2 1", "2 2 0 3 1 0", [26, 2, 0]),
    ("1 1 3 0 2 3 1 2 1", "1 1 0 0", [26, 2, 0]),
];

pub fn check(tally: &mut Tally) {
    for (net, sheet, should) in STARRED.into_iter().chain(ARBITRATED).chain(CAPPED) {
        let is = sheet_check(&text_words(net), &text_words(sheet), SCRATCH);
        tally.same(&format!("net {net}, sheet {sheet}"), is, should);
        let plain = model::plain_check(&text_words(net), &text_words(sheet), &mut [7; SCRATCH]);
        tally.same(&format!("net {net}, sheet {sheet} by the plain engine"), plain, should);
    }
    short_forms(tally);
    replays(tally);
    mendings(tally);
    limits(tally);
    output(tally);
    comparison::check(tally);
    composition::check(tally);
    trimming::check(tally);
    reaction::check(tally);
}

fn text_words(text: &str) -> Vec<u32> {
    text.split_whitespace().filter_map(|word| word.parse().ok()).collect()
}

fn sheet_check(net: &[u32], sheet: &[u32], scratch: usize) -> [u64; 6] {
    model::sheet_check(net, sheet, &mut vec![7; scratch])
}

/// The four nodes become two (§14.4); the nine stay nine (§14.5).
fn short_forms(tally: &mut Tally) {
    let form = |net: &[u32], sheet: &[u32]| {
        let mut out = vec![0; FORM];
        let reply = model::short_form(net, sheet, &mut out, &mut [0; SCRATCH]);
        out.truncate(reply[3] as usize);
        (reply[0], out)
    };
    let four = text_words(STARRED[2].1);
    let two = text_words(STARRED[1].1);
    tally.same("short form of four nodes", form(&text_words(A), &four), (0, two));
    let (net, sheet) = nine_nodes().words();
    tally.same("nine nodes checked", sheet_check(&net, &sheet, SCRATCH), [0, 0, 0, 9, 12, 3]);
    tally.same("short form of nine nodes", form(&net, &sheet).1[0], 9);
}

/// Logs of the sheet of two nodes: t0 puts one and leads to node 1 by entry 0, t1 takes it and leads
/// back by entry 1.
fn replays(tally: &mut Tally) {
    let replay = |net: &str, sheet: &str, log: &[u32], room: [usize; 2]| {
        let [mut taken, mut put] = room.map(|room| vec![9; room]);
        let (net, sheet) = (text_words(net), text_words(sheet));
        let reply = model::replay(&net, &sheet, log, &mut taken, &mut put, &mut [0; SCRATCH]);
        (reply, taken, put)
    };
    let kept = |reply: [u64; 6]| (reply, vec![9, 9], vec![9, 9]);
    let two = |log: &[u32]| replay(A, STARRED[1].1, log, [2, 2]);
    tally.same("no firings", two(&[0]), ([0; 6], vec![0, 9], vec![0, 9]));
    tally.same("two firings", two(&[2, 0, 1, 1, 0]), ([0, 0, 0, 1, 1, 2], vec![1, 9], vec![1, 9]));
    tally.same("one firing", two(&[1, 0, 1]), ([0, 0, 0, 0, 1, 1], vec![0, 9], vec![1, 9]));
    tally.same("wrong node", two(&[2, 0, 1, 1, 1]), kept([24, 4, 1, 0, 0, 0]));
    tally.same("no node", two(&[2, 0, 1, 2, 0]), kept([24, 4, 0, 0, 0, 0]));
    tally.same("20 before 24", two(&[2, 1, 0, 9, 9]), kept([20, 4, 0, 0, 0, 0]));
    tally.same("24 before a later 20", two(&[2, 0, 0, 0, 0]), kept([24, 4, 0, 0, 0, 0]));
    for log in [&[][..], &[1], &[u32::MAX], &[0, 0], &[1, 0, 1, 0], &[2, 0, 1, 1]] {
        tally.same("no log", two(log), kept([23, 0, 0, 0, 0, 0]));
    }
    let short = replay(A, STARRED[1].1, &[1, 0, 1], [1, 0]);
    tally.same("one buffer is short", short, ([22, 0, 0, 0, 0, 0], vec![9], vec![]));
    let turns = |n: u32| -> Vec<u32> {
        [n].into_iter().chain((0..n).map(|i| i % 2)).chain((0..n).map(|i| 1 - i % 2)).collect()
    };
    let large = |n| {
        replay("1 2 2 1 2 1000000000 1000000000", "2 3 0 3 5 1 0 1000000000", &turns(n), [1, 1])
    };
    let sum = 2_048_000_000_000;
    tally.same("4,096 firings", large(4_096), ([0, 0, 0, sum, sum, 2], vec![sum], vec![sum]));
    tally.same("4,097 firings", large(4_097), ([23, 0, 0, 0, 0, 0], vec![9], vec![9]));
}

fn mend(net: &[u32], sheet: &[u32], room: [usize; 2]) -> ([u64; 5], Vec<u32>, Vec<u32>) {
    let [mut out, mut list] = room.map(|room| vec![9; room]);
    let reply = model::mend(net, sheet, &mut out, &mut list, &mut [7; SCRATCH]);
    (reply, out, list)
}

/// What is mended and what is not, both in buffers of the lengths needed and in shorter ones.
fn mendings(tally: &mut Tally) {
    for (net, sheet, mended, list) in MENDED.into_iter().chain(CAPPED_MENDED) {
        let what = format!("net {net}, sheet {sheet} mended");
        let [net, sheet, mended, list] = [net, sheet, mended, list].map(text_words);
        let lengths = [mended.len(), list.len()];
        let numbers = [0, 0, 0, lengths[0] as u64, lengths[1] as u64];
        tally.same(&what, mend(&net, &sheet, lengths), (numbers, mended, list));
        for short in [[lengths[0] - 1, lengths[1]], [lengths[0], lengths[1] - 1], [0, 0]] {
            let [out, list] = short.map(|length| vec![9; length]);
            tally.same(&what, mend(&net, &sheet, short), ([22, 0, 0, 0, 0], out, list));
        }
    }
    for (net, sheet, [number, kind, at]) in NOT_MENDED.into_iter().chain(CAPPED_NOT_MENDED) {
        let what = format!("net {net}, sheet {sheet} not mended");
        let [net, sheet] = [net, sheet].map(text_words);
        let kept = ([number, kind, at, 0, 0], vec![9; 10], vec![9; 10]);
        tally.same(&what, mend(&net, &sheet, [10, 10]), kept);
    }
    let (net, full) = crowded(&mut Rng::new(0)).words();
    tally.same("4,096 entries are mended", mend(&net, &full, [FORM, LIST]).0, [0, 0, 0, 8_194, 1]);
    let (net, arcs) = one_too_many();
    tally.same("4,097 are not", mend(&net, &arcs, [FORM, LIST]).0, [25, 0, 0, 0, 0]);
}

/// A ring of 128 nodes with one arc each. 31 places hold one everywhere; the last place is filled from
/// node 0 and drained at node 1: 128 + 31 × 128 + 1 entries. Only the arcs are given.
fn one_too_many() -> (Vec<u32>, Vec<u32>) {
    let place = |places: std::ops::Range<usize>| -> Vec<u64> {
        (0..32).map(|p| u64::from(places.contains(&p))).collect()
    };
    let net = Net {
        taken: vec![place(0..0), place(31..32), place(0..1)],
        put: vec![place(31..32), place(0..0), place(0..1)],
        start: place(0..31),
        capacity: vec![None; 32],
    };
    let row =
        |node: usize| (0..3).map(|t| (t == node.min(2)).then_some((node + 1) % 128)).collect();
    let sheet = Sheet { arcs: (0..128).map(row).collect(), counts: vec![vec![0; 32]; 128] };
    (net_words(&net), sheet.words())
}

/// The limits: §14.6.
fn limits(tally: &mut Tally) {
    let lone = text_words("1 1 0 0");
    let wide = |p: u32, t: u32| sheet_check(&[p, t, 0], &all_home(t), SCRATCH)[0];
    tally.same("P of 32 and 33", [wide(32, 1), wide(33, 1)], [0, 2]);
    tally.same("T of 32 and 33", [wide(1, 32), wide(1, 33)], [0, 2]);
    let (net, ring_128) = ring(&[true; 128], 1).words();
    let ring_129 = ring(&[true; 129], 1).words().1;
    let nodes = |sheet: &[u32]| sheet_check(&net, sheet, SCRATCH)[0];
    tally.same("V of 128 and 129", [nodes(&ring_128), nodes(&ring_129)], [0, 7]);
    let (net, full) = crowded(&mut Rng::new(0)).words();
    let mut over = full.clone();
    over[1] += 1;
    over.extend([0, 1]);
    let entries = |sheet: &[u32]| sheet_check(&net, sheet, SCRATCH)[0];
    tally.same("K", [full[1], over[1]], [4_096, 4_097]);
    tally.same("K of 4,096 and 4,097", [entries(&full), entries(&over)], [0, 7]);
    let weight = |w: u32| sheet_check(&[1, 1, 1, 2, w], &[1, 2, 0, 1, 0, w], SCRATCH);
    tally.same("weight at the limit", weight(1_000_000_000), [0, 0, 0, 1, 1, 1]);
    tally.same("weight past the limit", weight(1_000_000_001), [4, 1, 0, 0, 0, 0]);
    let lent = |scratch: usize| sheet_check(&[1, 1, 0], &lone, scratch)[0];
    tally.same("scratch of 8,192 and 8,191", [lent(8_192), lent(8_191)], [0, 21]);
    for kind in [Kind::SheetCheck, Kind::PlaceBounds, Kind::Run, Kind::ShortForm, Kind::Mend] {
        let panel = |scratch: usize| {
            let call = Call::new(kind, &[1, 1, 0], &lone);
            let outcome = Call { panel: true, scratch: vec![7; scratch], ..call }.put();
            let cleared = outcome.scratch.iter().take_while(|&&word| word == 0).count();
            (outcome.reply[0], cleared, outcome.scratch.iter().filter(|&&word| word == 7).count())
        };
        tally.same("scratch of 1,023 on the panel", panel(1_023), (21, 0, 1_023));
        tally.same("scratch of 1,024 on the panel", panel(1_024), (0, 1_024, 0));
        tally.same("scratch of 1,025 on the panel", panel(1_025), (0, 1_024, 1));
        tally.same("scratch of 8,192 on the panel", panel(8_192), (0, 1_024, 7_168));
    }
}

/// One node with an arc to itself for each of t sources.
fn all_home(t: u32) -> Vec<u32> {
    [1, t].into_iter().chain(0..t).chain((0..t).map(|_| 0)).collect()
}

/// The program's whole output for the four nodes and for a refusal, and how files are read.
fn output(tally: &mut Tally) {
    let bytes = |words: &[u32]| -> Vec<u8> { words.iter().flat_map(|w| w.to_le_bytes()).collect() };
    let net = bytes(&text_words(A));
    let four = bytes(&text_words(STARRED[2].1));
    let text = "answer 0 none 0\nnodes 4 arcs 4 awaits 2\nplace 0 bound 1\nshort 2 3 0 3 5 1 0 1\n";
    tally.same("output for four nodes", printed(&net, &four).as_str(), text);
    let refused = printed(&net, &bytes(&[1, 0]));
    tally.same("output for a dead end", refused.as_str(), "answer 11 node 0\n");
    let mut line = |what: &str, net: &[u8], sheet: &[u8], should: &str| {
        tally.same(what, printed(net, sheet).as_str(), should);
    };
    line("no files", &[], &[], "answer 1 none 0\n");
    line("no sheet", &net, &[], "answer 6 none 0\n");
    line("tail of a net", &[&net[..], &[0]].concat(), &four, "answer 1 none 0\n");
    line("tail of a sheet", &net, &[&four[..], &[0, 0, 0]].concat(), "answer 6 none 0\n");
    line("tail before sizes", &[0; 16_911], &four, "answer 1 none 0\n");
    line("no tail of a longer net", &[0; 16_913], &four, "answer 2 none 0\n");
    line("tail before sizes", &net, &[0; 32_779], "answer 6 none 0\n");
    line("no tail of a longer sheet", &net, &[0; 32_781], "answer 7 none 0\n");
    line("net before the sheet's tail", &[0; 12], &[0], "answer 2 none 0\n");
}
