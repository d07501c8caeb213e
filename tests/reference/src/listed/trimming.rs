//! Trimmed sheets told by hand.

use super::{text_words, A, STARRED};
use crate::call::{Call, Kind};
use crate::tally::Tally;

/// Net, sheet, the trimmed sheet, and for each of its nodes the number it had.
const TRIMMED: [(&str, &str, &str, &str); 9] = [
    (A, "2 3 0 3 5 1 0 1", "2 3 0 3 5 1 0 1", "0 1"),
    // §14.3: node 2 is not reached, though it leads to node 1
    (A, "3 4 0 3 4 7 1 0 1 1", "2 3 0 3 5 1 0 1", "0 1"),
    // the same with another number for it, and counts that no firing gives
    (A, "3 5 0 2 5 7 8 2 2 0 5 1", "2 3 0 3 5 1 0 1", "0 2"),
    // nodes 1 and 2 lead to each other and to the root
    (A, "4 6 0 2 3 4 7 11 3 2 0 1 0 1", "2 3 0 3 5 1 0 1", "0 3"),
    // no arc, an arc to the root itself, and arcs that are torn and starved
    (A, "1 0", "1 0", "0"),
    (A, "3 3 0 2 4 0 1 0", "1 1 0 0", "0"),
    (A, "3 3 1 4 6 2 1 9", "3 3 1 4 6 2 1 9", "0 1 2"),
    (A, "3 2 1 6 2 9", "2 2 1 4 1 9", "0 2"),
    ("1 1 0", "128 1 0 127", "2 1 0 1", "0 127"),
];

/// Net, sheet, the number, kind and position. Nothing past 9 is asked.
const NOT_TRIMMED: [(&str, &str, [u64; 3]); 8] = [
    ("1 1", "1 0", [1, 0, 0]),
    ("1 1 1 0 1", "1 0", [5, 0, 0]),
    ("1 2 4 1 2 4 5 1 1 2 1", "1 0", [26, 2, 0]),
    (A, "2", [6, 0, 0]),
    (A, "129 0", [7, 0, 0]),
    (A, "2 3 0 3 6 1 0 1", [8, 1, 2]),
    (A, "2 3 0 3 5 2 0 1", [9, 1, 0]),
    (A, "2 3 0 3 5 1 0 0", [9, 1, 2]),
];

fn trim(net: &str, sheet: &str, room: [usize; 2]) -> (Vec<u64>, Vec<u32>, Vec<u32>) {
    let mut call = Call::new(Kind::Trim, &text_words(net), &text_words(sheet));
    [call.out, call.list] = room.map(|room| vec![9; room]);
    let outcome = call.put();
    (outcome.reply, outcome.out, outcome.list)
}

pub fn check(tally: &mut Tally) {
    for (net, sheet, trimmed, list) in TRIMMED {
        let what = format!("net {net}, sheet {sheet} trimmed");
        let [trimmed, list] = [trimmed, list].map(text_words);
        let lengths = [trimmed.len(), list.len()];
        let numbers = vec![0, 0, 0, lengths[0] as u64, lengths[1] as u64];
        tally.same(&what, trim(net, sheet, lengths), (numbers, trimmed, list));
        for short in [[lengths[0] - 1, lengths[1]], [lengths[0], lengths[1] - 1]] {
            let [out, list] = short.map(|length| vec![9; length]);
            tally.same(&what, trim(net, sheet, short), (vec![22, 0, 0, 0, 0], out, list));
        }
    }
    for (net, sheet, [number, kind, at]) in NOT_TRIMMED {
        let what = format!("net {net}, sheet {sheet} not trimmed");
        let kept = (vec![number, kind, at, 0, 0], vec![9; 10], vec![9; 10]);
        tally.same(&what, trim(net, sheet, [10, 10]), kept);
    }
    let four = STARRED[2].1;
    tally.same("four nodes stay", trim(A, four, [14, 4]).1, text_words(four));
}
