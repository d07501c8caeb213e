//! The calls over bytes of the archive, compared with the model's in this process: what is returned,
//! every byte of every buffer, and that none beside them is touched.

use crate::bytes::{self, encoded, REFUSED, REPLY_BYTES, SCRATCH_BYTES};
use crate::call::{Call, Kind};
use crate::generate::{self, rng::Rng};
use crate::model::FORM;
use crate::tally::Tally;
use std::collections::BTreeMap;

#[rustfmt::skip]
extern "C" {
    pub fn wulthrein_check(net: *const u8, n: usize, sheet: *const u8, s: usize, scratch: *mut u8, k: usize, reply: *mut u8, m: usize) -> u32;
    pub fn wulthrein_run(net: *const u8, n: usize, sheet: *const u8, s: usize, record: *const u8, r: usize, out: *mut u8, o: usize, scratch: *mut u8, k: usize, reply: *mut u8, m: usize) -> u32;
    pub fn wulthrein_short_form(net: *const u8, n: usize, sheet: *const u8, s: usize, out: *mut u8, o: usize, scratch: *mut u8, k: usize, reply: *mut u8, m: usize) -> u32;
    pub fn wulthrein_fire(net: *const u8, n: usize, sheet: *const u8, s: usize, node: u32, transition: u32, scratch: *mut u8, k: usize) -> u32;
}

const KINDS: [Kind; 4] = [Kind::SheetCheck, Kind::Run, Kind::ShortForm, Kind::SingleFiring];

/// A call's inputs, and what it may change.
#[derive(Clone)]
struct ByteCall {
    kind: Kind,
    net: Vec<u8>,
    sheet: Vec<u8>,
    record: Vec<u8>,
    node: u32,
    transition: u32,
    lent: Lent,
}

#[derive(Clone, PartialEq)]
struct Lent {
    out: Vec<u8>,
    scratch: Vec<u8>,
    reply: Vec<u8>,
}

/// The words of a generated call, and how many each kind writes.
struct Words {
    call: Call,
    places: usize,
    form: usize,
}

impl Words {
    fn any(rng: &mut Rng) -> Words {
        let call = generate::call(rng, &KINDS);
        let reply = Call::new(Kind::ShortForm, &call.net, &call.sheet).put().reply;
        let places = call.net.first().map_or(0, |&places| places.min(40) as usize);
        Words { places, form: reply[3] as usize, call }
    }

    /// As bytes, for a call of a kind, with lengths that are no words among them.
    fn lent(&self, kind: Kind, rng: &mut Rng) -> ByteCall {
        let Call { net, sheet, record, walker, transition, .. } = &self.call;
        let mut input = |words: &[u32]| tailed(rng, encoded(words), 4);
        let (net, sheet, record) = (input(net), input(sheet), input(record));
        let needed = if kind == Kind::Run { self.places } else { self.form };
        let words = match rng.below(8) {
            0 => needed.saturating_sub(1),
            1 => rng.below(needed + 1),
            2 => needed + rng.below(40),
            3 => FORM,
            _ => needed,
        };
        let out = filled(rng, 4 * words);
        let scratch = match rng.below(12) {
            0 => SCRATCH_BYTES - 1 - rng.below(4),
            1 => rng.below(SCRATCH_BYTES),
            2..=4 => SCRATCH_BYTES + rng.below(9),
            _ => SCRATCH_BYTES,
        };
        let reply = match rng.below(12) {
            0 => REPLY_BYTES - 1,
            1 => rng.below(REPLY_BYTES),
            2..=4 => REPLY_BYTES + rng.below(20),
            _ => REPLY_BYTES,
        };
        let lent = Lent {
            out: tailed(rng, out, 50),
            scratch: filled(rng, scratch),
            reply: filled(rng, reply),
        };
        ByteCall { kind, net, sheet, record, node: walker[0], transition: *transition, lent }
    }
}

impl ByteCall {
    /// What the model returns and leaves.
    fn model(&self) -> (u32, Lent) {
        let ByteCall { net, sheet, record, .. } = self;
        let Lent { mut out, mut scratch, mut reply } = self.lent.clone();
        let returned = match self.kind {
            Kind::SheetCheck => bytes::check(net, sheet, &mut scratch, &mut reply),
            Kind::Run => bytes::run(net, sheet, record, &mut out, &mut scratch, &mut reply),
            Kind::ShortForm => bytes::short_form(net, sheet, &mut out, &mut scratch, &mut reply),
            _ => bytes::fire(net, sheet, self.node, self.transition, &mut scratch),
        };
        (returned, Lent { out, scratch, reply })
    }

    /// What the archive returns and leaves, if it has touched nothing else: no input, and no byte before
    /// or behind a buffer.
    #[rustfmt::skip]
    fn archive(&self) -> (u32, Option<Lent>) {
        let given = [&self.net, &self.sheet, &self.record].map(|bytes| Guarded::around(bytes));
        let mut left = [&self.lent.out, &self.lent.scratch, &self.lent.reply].map(|bytes| Guarded::around(bytes));
        let [(net, n), (sheet, s), (record, r)] = [given[0].at(), given[1].at(), given[2].at()];
        let [out, scratch, reply] = &mut left;
        let ((out, o), (scratch, k), (reply, m)) = (out.at_mut(), scratch.at_mut(), reply.at_mut());
        // each pointer is that of a buffer of its own, with the length that follows it
        let returned = unsafe {
            match self.kind {
                Kind::SheetCheck => wulthrein_check(net, n, sheet, s, scratch, k, reply, m),
                Kind::Run => wulthrein_run(net, n, sheet, s, record, r, out, o, scratch, k, reply, m),
                Kind::ShortForm => wulthrein_short_form(net, n, sheet, s, out, o, scratch, k, reply, m),
                _ => wulthrein_fire(net, n, sheet, s, self.node, self.transition, scratch, k),
            }
        };
        let inputs = [&self.net, &self.sheet, &self.record];
        let kept = given.iter().zip(inputs).all(|(given, input)| given.within().as_ref() == Some(input));
        let [out, scratch, reply] = left.map(|buffer| buffer.within());
        let lent = out.zip(scratch).zip(reply).map(|((out, scratch), reply)| Lent { out, scratch, reply });
        (returned, lent.filter(|_| kept))
    }
}

/// A buffer between bytes that no call may touch.
struct Guarded(Vec<u8>);

impl Guarded {
    const CANARIES: [u8; 32] = [0xA5; 32];

    fn around(bytes: &[u8]) -> Guarded {
        Guarded([&Guarded::CANARIES, bytes, &Guarded::CANARIES].concat())
    }

    fn at(&self) -> (*const u8, usize) {
        let inside = &self.0[Guarded::CANARIES.len()..self.0.len() - Guarded::CANARIES.len()];
        (inside.as_ptr(), inside.len())
    }

    fn at_mut(&mut self) -> (*mut u8, usize) {
        let end = self.0.len() - Guarded::CANARIES.len();
        let inside = &mut self.0[Guarded::CANARIES.len()..end];
        (inside.as_mut_ptr(), inside.len())
    }

    /// The buffer, if the bytes around it are as they were.
    fn within(&self) -> Option<Vec<u8>> {
        let bytes = self.0.strip_prefix(&Guarded::CANARIES)?.strip_suffix(&Guarded::CANARIES)?;
        Some(bytes.to_vec())
    }
}

fn filled(rng: &mut Rng, length: usize) -> Vec<u8> {
    let mut bytes = encoded(&rng.words(length / 4 + 1));
    bytes.truncate(length);
    bytes
}

/// Bytes that are more or fewer by one to three, so often in a hundred.
fn tailed(rng: &mut Rng, mut bytes: Vec<u8>, percent: usize) -> Vec<u8> {
    if rng.chance(percent) {
        let tail = rng.between(1, 3);
        if rng.chance(50) {
            bytes.extend(filled(rng, tail));
        } else {
            bytes.truncate(bytes.len().saturating_sub(tail));
        }
    }
    bytes
}

/// Whether a call of a kind can answer a number.
fn answers(kind: Kind, number: u32) -> bool {
    match number {
        0..=17 | 21 | 26 | 27 | 31 => true,
        18 => kind == Kind::SingleFiring,
        20 => matches!(kind, Kind::SingleFiring | Kind::Run),
        22 => matches!(kind, Kind::Run | Kind::ShortForm),
        _ => false,
    }
}

/// Calls that are made of the same words, each kind twice, with other lengths.
const OF_ONE: u64 = 8;

/// Compares generated calls. Each number that a call can answer has to be met, and no other.
pub fn compare(count: u64, seed: u64, tally: &mut Tally) {
    let mut met: BTreeMap<(Kind, u32), u64> = BTreeMap::new();
    let mut words = Words::any(&mut Rng::for_case(seed, 0));
    for index in 0..count {
        let rng = &mut Rng::for_case(seed, index);
        if index % OF_ONE == 0 {
            words = Words::any(rng);
        }
        let call = words.lent(KINDS[index as usize % KINDS.len()], rng);
        let ((should, left), (is, found)) = (call.model(), call.archive());
        let number = match call.kind {
            Kind::SingleFiring => should.checked_sub(REFUSED).unwrap_or(0),
            _ => should,
        };
        *met.entry((call.kind, number)).or_insert(0) += 1;
        tally.check(is == should && found.as_ref() == Some(&left), || {
            let same = found.map(|found| {
                [found.out == left.out, found.scratch == left.scratch, found.reply == left.reply]
            });
            format!(
                "{} {index} of seed {seed}: {is} for {should}; out, scratch, reply, and nothing else: {same:?}",
                call.kind.name()
            )
        });
    }
    for kind in KINDS {
        let times = |number| met.get(&(kind, number)).copied().unwrap_or(0);
        let line: Vec<String> =
            (0..32).filter(|&n| times(n) > 0).map(|n| format!("{n}: {}", times(n))).collect();
        println!("{} {}", kind.name(), line.join(", "));
        for number in 0..32 {
            tally.check((times(number) > 0) == answers(kind, number), || {
                format!("{} answered {number} {} times", kind.name(), times(number))
            });
        }
    }
}
