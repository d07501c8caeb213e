//! The calls over bytes (request #110), from the model of the word calls: part 15 of `docs/SPEC.md`.

use crate::model::{self, LINES, SCRATCH};

/// Bytes of scratch and of reply below which a call is refused by 21: §15.3, §15.4.
pub const SCRATCH_BYTES: usize = 4 * SCRATCH;
pub const REPLY_BYTES: usize = 48;

/// What a refused firing returns beyond its number: §15.6.
pub const REFUSED: u32 = 1 << 31;

/// The whole words of some bytes, least significant byte first: §12.1.
pub fn decoded(bytes: &[u8]) -> Vec<u32> {
    let word = |part: &[u8]| part.iter().rev().fold(0, |word, &byte| 256 * word + u32::from(byte));
    bytes.chunks_exact(4).map(word).collect()
}

pub fn encoded(words: &[u32]) -> Vec<u8> {
    words.iter().flat_map(|word| word.to_le_bytes()).collect()
}

/// 21, then 31: §7.65. Scratch that passes is cleared.
fn early(scratch: &mut [u8], inputs: &[&[u8]]) -> Option<u64> {
    if scratch.len() < SCRATCH_BYTES {
        return Some(21);
    }
    scratch[..SCRATCH_BYTES].fill(0);
    inputs.iter().any(|input| input.len() % 4 != 0).then_some(31)
}

/// A call with a reply: nothing is touched where that is too short (§15.3); the numbers that a call
/// has no use for are 0.
fn replied(
    scratch: &mut [u8],
    reply: &mut [u8],
    inputs: &[&[u8]],
    words: impl FnOnce() -> Vec<u64>,
) -> u32 {
    if reply.len() < REPLY_BYTES {
        return 21;
    }
    let mut six = match early(scratch, inputs) {
        Some(number) => vec![number],
        None => words(),
    };
    six.resize(6, 0);
    for (at, number) in six.iter().enumerate() {
        reply[8 * at..8 * at + 8].copy_from_slice(&number.to_le_bytes());
    }
    six[0] as u32
}

/// An output buffer as its whole words, and the words put back after the call: §15.5.
fn through<T>(out: &mut [u8], call: impl FnOnce(&mut [u32]) -> T) -> T {
    let mut words = decoded(out);
    let answer = call(&mut words);
    out[..4 * words.len()].copy_from_slice(&encoded(&words));
    answer
}

pub fn check(net: &[u8], sheet: &[u8], scratch: &mut [u8], reply: &mut [u8]) -> u32 {
    replied(scratch, reply, &[net, sheet], || {
        model::sheet_check(&decoded(net), &decoded(sheet), &mut [0; SCRATCH]).to_vec()
    })
}

pub fn run(
    net: &[u8],
    sheet: &[u8],
    record: &[u8],
    out: &mut [u8],
    scratch: &mut [u8],
    reply: &mut [u8],
) -> u32 {
    replied(scratch, reply, &[net, sheet, record], || {
        let (net, sheet, record) = (decoded(net), decoded(sheet), decoded(record));
        through(out, |out| model::run(&net, &sheet, &record, out, &mut [0; SCRATCH]).to_vec())
    })
}

pub fn short_form(
    net: &[u8],
    sheet: &[u8],
    out: &mut [u8],
    scratch: &mut [u8],
    reply: &mut [u8],
) -> u32 {
    replied(scratch, reply, &[net, sheet], || {
        let (net, sheet) = (decoded(net), decoded(sheet));
        through(out, |out| model::short_form(&net, &sheet, out, &mut [0; SCRATCH]).to_vec())
    })
}

/// §15.6: from the counts that the sheet gives the node, read here key by key (§3.6).
pub fn fire(net: &[u8], sheet: &[u8], node: u32, transition: u32, scratch: &mut [u8]) -> u32 {
    if let Some(number) = early(scratch, &[net, sheet]) {
        return REFUSED + number as u32;
    }
    let (net, sheet) = (decoded(net), decoded(sheet));
    let mut scratch = [0; SCRATCH];
    let answer = model::sheet_check(&net, &sheet, &mut scratch);
    if answer[0] != 0 {
        return REFUSED + answer[0] as u32;
    }
    let mut walker = [0; 1 + LINES];
    walker[0] = node;
    let (places, transitions) = (u64::from(net[0]), u64::from(net[1]));
    let (nodes, entries) = (u64::from(sheet[0]), sheet[1] as usize);
    for i in 0..entries {
        let (key, count) = (u64::from(sheet[2 + i]), sheet[2 + entries + i]);
        let first = nodes * transitions + u64::from(node) * places;
        if u64::from(node) < nodes && (first..first + places).contains(&key) {
            walker[1 + (key - first) as usize] = count;
        }
    }
    let answer = model::single_firing(&net, &sheet, &mut walker, transition, &mut scratch);
    if answer[0] != 0 {
        return REFUSED + answer[0] as u32;
    }
    walker[0]
}
