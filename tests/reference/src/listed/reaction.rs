//! Reaction times told by hand.

use super::{text_words, A, STARRED};
use crate::call::{Call, Kind};
use crate::tally::Tally;

/// One source, one transition that keeps the token and one that takes it, both in one choice set: from
/// the busy node a way leads home, and another back to itself.
const LOOP: (&str, &str) = ("1 3 4 1 2 3 4 1 1 1 1", "2 4 0 4 5 7 1 1 0 1");
/// The same behind another busy node, which is on no loop.
const BEHIND: (&str, &str) = ("2 4 6 2 5 7 8 11 13 1 1 1 1 1 1", "3 6 0 5 10 11 14 17 1 2 2 0 1 1");

/// Net, sheet, durations, the times.
const TIMED: [(&str, &str, &str, &str); 8] = [
    ("1 1 0", "1 1 0 0", "1 0 0", "0 0"),
    ("1 1 0", "1 1 0 0", "1 4 9", "4 9"),
    ("1 1 0", "1 1 0 0", "1 1000000 1000000", "1000000 1000000"),
    (A, STARRED[1].1, "2 1 2 3 5", "3 8"),
    // two await nodes
    (A, STARRED[2].1, "2 1 2 3 5", "3 8 3 8"),
    // two ways home, the one sooner at its best, the other later at its worst
    ("1 3 3 1 2 3 1 1 1", "2 4 0 4 5 7 1 0 0 1", "3 1 2 4 1 5 7", "3 8"),
    ("1 3 3 1 2 3 1 1 1", "2 4 0 4 5 7 1 0 0 1", "3 1 2 2 1 7 5", "3 8"),
    // two sources at one node
    ("1 2 0", "1 2 0 1 0 0", "2 1 2 3 4", "1 3 2 4"),
];

/// Net, sheet, durations, the number, kind and position.
const NOT_TIMED: [(&str, &str, &str, [u64; 3]); 14] = [
    (A, "1 0", "", [11, 3, 0]),
    (A, STARRED[1].1, "", [32, 0, 0]),
    (A, STARRED[1].1, "2 1 2 3", [32, 0, 0]),
    (A, STARRED[1].1, "2 1 2 3 5 0", [32, 0, 0]),
    (A, STARRED[1].1, "1 1 3", [32, 0, 0]),
    (A, STARRED[1].1, "3 1 2 3 5", [32, 0, 0]),
    (A, STARRED[1].1, "2 4 2 3 5", [32, 1, 0]),
    (A, STARRED[1].1, "2 1 6 3 5", [32, 1, 1]),
    (A, STARRED[1].1, "2 1 2 1000001 1000001", [32, 1, 0]),
    (A, STARRED[1].1, "2 1 2 3 1000001", [32, 1, 1]),
    (A, STARRED[1].1, "2 1 1000001 3 5", [32, 1, 1]),
    (LOOP.0, LOOP.1, "3 0 0 0 0 0 0", [33, 3, 1]),
    (LOOP.0, LOOP.1, "3 0 0 1 0 0 0", [32, 1, 2]),
    (BEHIND.0, BEHIND.1, "4 0 0 0 0 0 0 0 0", [33, 3, 2]),
];

fn react(net: &str, sheet: &str, durations: &str, room: usize) -> (Vec<u64>, Vec<u32>) {
    let mut call = Call::new(Kind::React, &text_words(net), &text_words(sheet));
    call.record = text_words(durations);
    call.out = vec![9; room];
    let outcome = call.put();
    (outcome.reply, outcome.out)
}

pub fn check(tally: &mut Tally) {
    for (net, sheet, durations, times) in TIMED {
        let what = format!("net {net}, sheet {sheet}, durations {durations}");
        let times = text_words(times);
        let numbers = vec![0, 0, 0, times.len() as u64];
        let room = times.len();
        tally.same(&what, react(net, sheet, durations, room), (numbers, times));
        let short = (vec![22, 0, 0, 0], vec![9; room - 1]);
        tally.same(&what, react(net, sheet, durations, room - 1), short);
    }
    for (net, sheet, durations, [number, kind, at]) in NOT_TIMED {
        let what = format!("net {net}, sheet {sheet}, durations {durations}");
        let kept = (vec![number, kind, at, 0], vec![9; 4]);
        tally.same(&what, react(net, sheet, durations, 4), kept);
    }
}
