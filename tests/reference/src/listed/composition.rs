//! Compositions told by hand: tasks with a place each, tasks that share a flag, room that is enough
//! for each and not for both, and what is refused before.

use super::text_words;
use crate::call::{Call, Kind};
use crate::tally::Tally;

/// Two sources, each with a place that it fills and another transition drains.
const APART: &str = "2 4 4 4 7 8 11 1 1 1 1";
const FIRST: &str = "2 3 0 6 10 1 0 1";
const SECOND: &str = "2 3 1 7 11 1 0 1";
/// Waiting, then the first task's busy node, then the second's.
const BOTH: &str = "3 6 0 1 6 11 14 17 1 2 0 0 1 1";

/// The net of §14.5 without Q: a and b fill A and B; x takes A and F, y takes A, z takes B and F, w
/// takes B. The flag F is there once, and either task by itself takes it the first time.
const FLAG: &str = "3 6 9 6 8 9 13 14 16 18 22 38 1 1 1 1 1 1 1 1 1";
const FLAG_A: &str = "4 8 0 8 12 21 26 27 29 33 1 2 3 2 1 1 1 1";
const FLAG_B: &str = "4 8 1 10 13 23 26 28 29 34 1 2 3 2 1 1 1 1";

/// Each source puts 1 into the place that both share and into one of its own, and another transition
/// takes both.
const SHARED: &str = "3 4 8 6 7 9 11 12 13 15 17 1 1 1 1 1 1 1 1";
const SHARED_FIRST: &str = "2 4 0 6 11 12 1 0 1 1";
const SHARED_SECOND: &str = "2 4 1 7 11 13 1 0 1 1";

/// The reply and what the buffer of the length given holds, 9 where nothing is written. The slices past
/// those given are no sheets.
fn compose(net: &str, number: u32, sheets: &[&str], room: usize) -> (Vec<u64>, Vec<u32>) {
    let mut words: Vec<Vec<u32>> = sheets.iter().map(|sheet| text_words(sheet)).collect();
    words.resize(4, vec![7; 3]);
    let mut call = Call::new(Kind::Compose, &text_words(net), &words.remove(0));
    (call.number, call.others) = (number, words);
    call.out = vec![9; room];
    let outcome = call.put();
    (outcome.reply, outcome.out)
}

pub fn check(tally: &mut Tally) {
    let both = text_words(BOTH);
    let length = both.len() as u64;
    let is = compose(APART, 2, &[FIRST, SECOND], both.len());
    tally.same("two tasks apart", is, (vec![0, 0, 0, length, 0], both.clone()));
    let kept = |reply: [u64; 5]| (reply.to_vec(), vec![9; 14]);
    let mut refused = |what: &str, number: u32, sheets: &[&str], reply: [u64; 5]| {
        tally.same(what, compose(APART, number, sheets, 14), kept(reply));
    };
    for number in [0, 1, 3, 4, 5, u32::MAX] {
        refused("not as many as the sources", number, &[FIRST, SECOND], [28, 0, 0, 0, 0]);
    }
    refused("a removed source", 2, &[SECOND, FIRST], [12, 3, 0, 0, 1]);
    refused("a removed source", 2, &[FIRST, FIRST], [12, 3, 0, 0, 2]);
    refused("an arc of a removed source alone", 2, &["1 1 1 0", SECOND], [12, 3, 0, 0, 1]);
    refused("a removed source beside", 2, &[FIRST, "1 2 0 1 0 0"], [12, 3, 0, 0, 2]);
    refused("no arc at all", 2, &[FIRST, "1 0"], [11, 3, 0, 0, 2]);
    refused("no words", 2, &[FIRST, ""], [6, 0, 0, 0, 2]);
    refused("the first before the second", 2, &["2 2 0 6 1 0", ""], [15, 1, 0, 0, 1]);
    let short = compose(APART, 2, &[FIRST, SECOND], 13);
    tally.same("a short buffer", short, (vec![22, 0, 0, 0, 0], vec![9; 13]));
    // either task by itself is right, and together both want the flag
    let flag = compose(FLAG, 2, &[FLAG_A, FLAG_B], 1_000).0;
    tally.same("one flag for two", flag, vec![30, 0, 0, 0, 0]);
    shared(tally);
    let lone = compose("1 1 0", 1, &["1 1 0 0"], 4);
    tally.same("one task", lone, (vec![0, 0, 0, 4, 0], vec![1, 1, 0, 0]));
    let five = compose("1 5 0", 5, &["1 1 0 0"; 4], 4);
    tally.same("five sources", five, (vec![28, 0, 0, 0, 0], vec![9; 4]));
    let four = compose("1 4 0", 4, &["1 1 0 0", "1 1 1 0", "1 1 2 0", "1 1 3 0"], 10);
    tally.same("four", four, (vec![0, 0, 0, 10, 0], vec![1, 4, 0, 1, 2, 3, 0, 0, 0, 0]));
}

/// Where each task drains the shared place before it waits, that never holds what both put; where
/// both fill it, wait, fill it again and drain it, it holds three times what one puts at a time.
fn shared(tally: &mut Tally) {
    let together = "3 8 0 1 6 11 15 16 18 20 1 2 0 0 1 1 1 1";
    let is = compose(SHARED, 2, &[SHARED_FIRST, SHARED_SECOND], 18).1;
    tally.same("a shared place", is, text_words(together));
    // what is put into and taken from the shared place, by the one and by the other, and its capacity
    let twice = |[one, other]: [u32; 2], most: Option<u32>| {
        let weights = format!("{one} 1 {other} 1 {one} 1 {other} 1");
        let net = match most {
            Some(most) => format!("3 4 9 6 7 9 11 12 13 15 17 27 {weights} {most}"),
            None => format!("3 4 8 6 7 9 11 12 13 15 17 {weights}"),
        };
        let first = "4 10 0 4 10 14 19 20 22 23 25 26 1 2 3 0";
        let second = "4 10 1 5 11 15 19 21 22 24 25 27 1 2 3 0";
        let filled = |sheet: &str, w: u32| format!("{sheet} {w} 1 {} 2 {w} 1", 2 * w);
        let sheets = [filled(first, one), filled(second, other)];
        compose(&net, 2, &[&sheets[0], &sheets[1]], 1_000).0
    };
    tally.same("room for each and for both", twice([1, 1], Some(3))[0], 0);
    tally.same("room for each and not for both", twice([1, 1], Some(2)), vec![30, 0, 0, 0, 0]);
    let (just, more) = ([400_000_000, 200_000_000], [400_000_000, 200_000_001]);
    tally.same("as much as the greatest capacity", twice(just, Some(1_000_000_000))[0], 0);
    tally.same("more than that", twice(more, Some(1_000_000_000)), vec![30, 0, 0, 0, 0]);
    tally.same("as much as a count can be", twice(just, None)[0], 0);
    tally.same("more than that", twice(more, None), vec![29, 0, 0, 0, 0]);
}
