//! Comparisons told by hand, of sheets of §14.3 and §14.5.

use super::{text_words, A, STARRED};
use crate::call::{Call, Kind};
use crate::generate::schedules::{fill_and_drain, nine_nodes};
use crate::tally::Tally;

/// The reply and what the buffers of the lengths given hold, 9 where nothing is written.
fn compare(net: &[u32], sheets: [&[u32]; 2], room: [usize; 2]) -> (Vec<u64>, Vec<u32>, Vec<u32>) {
    let mut call = Call::new(Kind::Compare, net, sheets[0]);
    call.others[0] = sheets[1].to_vec();
    [call.out, call.list] = room.map(|room| vec![9; room]);
    let outcome = call.put();
    (outcome.reply, outcome.out, outcome.list)
}

/// The sheets of two and of four nodes allow the same; filled twice before it is drained, the place
/// allows other lists.
pub fn check(tally: &mut Tally) {
    let [net, two, four] = [A, STARRED[1].1, STARRED[2].1].map(text_words);
    let twice = fill_and_drain(2).sheet.words();
    let both = |sheets: [&[u32]; 2]| compare(&net, sheets, [8, 8]);
    let written = (vec![0, 0, 0, 8, 8, 1, 0], two.clone(), two.clone());
    for sheets in [[&two[..], &two], [&two, &four], [&four, &two], [&four, &four]] {
        tally.same("two and four nodes", both(sheets), written.clone());
    }
    let other = (vec![0, 0, 0, 8, twice.len() as u64, 0, 0], two.clone(), twice.clone());
    tally.same("filled twice", compare(&net, [&four, &twice], [8, twice.len()]), other);
    let kept = |reply: Vec<u64>| (reply, vec![9; 8], vec![9; 8]);
    let dead = text_words("1 0");
    let wrong = text_words("2 2 0 3 1 0");
    let first = kept(vec![11, 3, 0, 0, 0, 0, 1]);
    tally.same("the first before the second", both([&dead, &wrong]), first);
    let second = kept(vec![15, 1, 0, 0, 0, 0, 2]);
    tally.same("the second", both([&two, &wrong]), second);
    for room in [[7, 8], [8, 7]] {
        let [out, list] = room.map(|room| vec![9; room]);
        let short = (vec![22, 0, 0, 0, 0, 0, 0], out, list);
        tally.same("a short buffer", compare(&net, [&two, &four], room), short);
    }
    let (whole, nine) = nine_nodes().words();
    let length = nine.len();
    let is = compare(&whole, [&nine, &nine], [length, length]);
    let length = length as u64;
    tally.same("nine nodes twice", is.0, vec![0, 0, 0, length, length, 1, 0]);
}
