//! The calls over bytes and the same calls on words, by the proved code and by the model, made in this
//! process to be timed or counted (`bench/measure bytes`). Nothing is tested here but that all four
//! answer the same.

use crate::byte_calls::{wulthrein_check, wulthrein_fire, wulthrein_run, wulthrein_short_form};
use crate::bytes::{self, decoded, REPLY_BYTES, SCRATCH_BYTES};
use crate::call::Kind;
use crate::model::{self, FORM, LINES, SCRATCH};
use std::hint::black_box;
use std::io::{Error, ErrorKind, Result};
use std::path::Path;
use std::time::Duration;

#[rustfmt::skip]
extern "C" {
    fn words_check(net: *const u32, n: usize, sheet: *const u32, s: usize, scratch: *mut u32, k: usize, reply: *mut usize);
    fn words_run(net: *const u32, n: usize, sheet: *const u32, s: usize, record: *const u32, r: usize, out: *mut u32, o: usize, scratch: *mut u32, k: usize, reply: *mut usize);
    fn words_short_form(net: *const u32, n: usize, sheet: *const u32, s: usize, out: *mut u32, o: usize, scratch: *mut u32, k: usize, reply: *mut usize);
    fn words_fire(net: *const u32, n: usize, sheet: *const u32, s: usize, node: u32, counts: *const u32, transition: u32, scratch: *mut u32, k: usize) -> u32;
}

/// As C has it on 64-bit Linux, with the number of the clock that tells this thread's processor time.
#[repr(C)]
struct Timespec {
    seconds: i64,
    nanoseconds: i64,
}

const THREAD_TIME: i32 = 3;

extern "C" {
    fn clock_gettime(clock: i32, time: *mut Timespec) -> i32;
}

/// The processor time that this thread has had: what others take of the processor does not count.
fn had() -> Duration {
    let mut time = Timespec { seconds: 0, nanoseconds: 0 };
    // the one pointer is that of a timespec
    unsafe { clock_gettime(THREAD_TIME, &mut time) };
    Duration::new(time.seconds as u64, time.nanoseconds as u32)
}

const KINDS: [Kind; 4] = [Kind::SheetCheck, Kind::Run, Kind::ShortForm, Kind::SingleFiring];

/// Who makes a call, and over what.
#[derive(Clone, Copy, PartialEq)]
enum By {
    Bytes,
    Words,
    ModelBytes,
    ModelWords,
}

impl By {
    const ALL: [By; 4] = [By::Bytes, By::Words, By::ModelBytes, By::ModelWords];

    fn name(self) -> &'static str {
        match self {
            By::Bytes => "bytes",
            By::Words => "words",
            By::ModelBytes => "model-bytes",
            By::ModelWords => "model-words",
        }
    }
}

/// A net, a sheet and a record, and the buffers lent. A firing is at node 0, by transition 0.
struct Lent {
    bytes: [Vec<u8>; 3],
    words: [Vec<u32>; 3],
    walker: model::Walker,
    out: Vec<u8>,
    scratch: Vec<u8>,
    out_words: Vec<u32>,
    scratch_words: Vec<u32>,
}

impl Lent {
    /// From the files of a folder.
    fn in_folder(folder: &Path) -> Result<Lent> {
        let read = |name| std::fs::read(folder.join(name));
        let bytes = [read("net.bin")?, read("sheet.bin")?, read("record.bin")?];
        let words = [decoded(&bytes[0]), decoded(&bytes[1]), decoded(&bytes[2])];
        let mut walker = [0; 1 + LINES];
        model::fresh_walker(&words[0], &mut walker);
        Ok(Lent {
            bytes,
            words,
            walker,
            out: vec![0; 4 * FORM],
            scratch: vec![0; SCRATCH_BYTES],
            out_words: vec![0; FORM],
            scratch_words: vec![0; SCRATCH],
        })
    }

    /// Makes a call; what it answers, as six numbers.
    fn make(&mut self, kind: Kind, by: By) -> [u64; 6] {
        match by {
            By::Bytes => self.by_bytes(kind),
            By::Words => self.by_words(kind),
            By::ModelBytes => self.by_model_bytes(kind),
            By::ModelWords => self.by_model_words(kind),
        }
    }

    #[rustfmt::skip]
    fn by_bytes(&mut self, kind: Kind) -> [u64; 6] {
        let [(net, n), (sheet, s), (record, r)] = [0, 1, 2].map(|i| (self.bytes[i].as_ptr(), self.bytes[i].len()));
        let ((out, o), (scratch, k)) = ((self.out.as_mut_ptr(), self.out.len()), (self.scratch.as_mut_ptr(), self.scratch.len()));
        let mut six = [0; REPLY_BYTES];
        let (reply, m) = (six.as_mut_ptr(), six.len());
        // each pointer is that of a buffer of its own, with the length that follows it
        unsafe {
            match kind {
                Kind::SheetCheck => wulthrein_check(net, n, sheet, s, scratch, k, reply, m),
                Kind::Run => wulthrein_run(net, n, sheet, s, record, r, out, o, scratch, k, reply, m),
                Kind::ShortForm => wulthrein_short_form(net, n, sheet, s, out, o, scratch, k, reply, m),
                _ => return one(wulthrein_fire(net, n, sheet, s, 0, 0, scratch, k)),
            }
        };
        numbers(&six)
    }

    #[rustfmt::skip]
    fn by_words(&mut self, kind: Kind) -> [u64; 6] {
        let [(net, n), (sheet, s), (record, r)] = [0, 1, 2].map(|i| (self.words[i].as_ptr(), self.words[i].len()));
        let ((out, o), (scratch, k)) = ((self.out_words.as_mut_ptr(), self.out_words.len()), (self.scratch_words.as_mut_ptr(), self.scratch_words.len()));
        let mut six = [0usize; 6];
        let reply = six.as_mut_ptr();
        // as above; a reply has six numbers, and counts have 32
        unsafe {
            match kind {
                Kind::SheetCheck => words_check(net, n, sheet, s, scratch, k, reply),
                Kind::Run => words_run(net, n, sheet, s, record, r, out, o, scratch, k, reply),
                Kind::ShortForm => words_short_form(net, n, sheet, s, out, o, scratch, k, reply),
                _ => return one(words_fire(net, n, sheet, s, 0, self.walker[1..].as_ptr(), 0, scratch, k)),
            }
        };
        six.map(|number| number as u64)
    }

    fn by_model_bytes(&mut self, kind: Kind) -> [u64; 6] {
        let Lent { bytes: [net, sheet, record], out, scratch, .. } = self;
        let mut six = [0; REPLY_BYTES];
        match kind {
            Kind::SheetCheck => bytes::check(net, sheet, scratch, &mut six),
            Kind::Run => bytes::run(net, sheet, record, out, scratch, &mut six),
            Kind::ShortForm => bytes::short_form(net, sheet, out, scratch, &mut six),
            _ => return one(bytes::fire(net, sheet, 0, 0, scratch)),
        };
        numbers(&six)
    }

    fn by_model_words(&mut self, kind: Kind) -> [u64; 6] {
        let Lent { words: [net, sheet, record], out_words: out, scratch_words: scratch, .. } = self;
        match kind {
            Kind::SheetCheck => model::sheet_check(net, sheet, scratch),
            Kind::Run => model::run(net, sheet, record, out, scratch),
            Kind::ShortForm => {
                let [number, kind, at, length] = model::short_form(net, sheet, out, scratch);
                [number, kind, at, length, 0, 0]
            }
            _ => {
                let mut walker = self.walker;
                let answer = model::single_firing(net, sheet, &mut walker, 0, scratch);
                one(if answer[0] == 0 { walker[0] } else { bytes::REFUSED })
            }
        }
    }

    /// The processor time that so many calls take.
    fn timed(&mut self, kind: Kind, by: By, calls: u32) -> Duration {
        let start = had();
        for _ in 0..calls {
            black_box(black_box(&mut *self).make(kind, by));
        }
        had() - start
    }

    /// Whether all four accept a call, answer the same and write the same.
    fn agree(&mut self, kind: Kind) -> bool {
        let mut told = By::ALL.map(|by| {
            self.out.fill(0);
            self.out_words.fill(0);
            let answer = self.make(kind, by);
            let over_bytes = matches!(by, By::Bytes | By::ModelBytes);
            (answer, if over_bytes { decoded(&self.out) } else { self.out_words.clone() })
        });
        let accepted = match kind {
            Kind::SingleFiring => told[0].0[0] < u64::from(bytes::REFUSED),
            _ => told[0].0[0] == 0,
        };
        told.sort();
        accepted && told[0] == told[3]
    }
}

fn one(number: u32) -> [u64; 6] {
    [u64::from(number), 0, 0, 0, 0, 0]
}

/// The six numbers of a reply.
fn numbers(reply: &[u8; REPLY_BYTES]) -> [u64; 6] {
    [0, 8, 16, 24, 32, 40].map(|at| (0..8).rev().fold(0, |n, i| 256 * n + u64::from(reply[at + i])))
}

fn failed(why: &str) -> Error {
    Error::new(ErrorKind::Other, why)
}

/// What one of the four takes in a round, or a little more.
const ROUND: Duration = Duration::from_millis(4);

/// A line for each call and round: the call's name, and the nanoseconds that it takes over bytes, on words,
/// and by the model over bytes and on words. In a round they come by turns, another first each time.
pub fn time(folder: &Path, rounds: usize) -> Result<String> {
    let mut lent = Lent::in_folder(folder)?;
    let mut text = String::new();
    for kind in KINDS {
        if !lent.agree(kind) {
            return Err(failed(&format!("{}: the four do not agree", kind.name())));
        }
        let calls = By::ALL.map(|by| {
            let least = (0..3).map(|_| lent.timed(kind, by, 1)).min().unwrap_or(ROUND);
            1 + (ROUND.as_nanos() / least.as_nanos().max(1)) as u32
        });
        for round in 0..rounds {
            let mut taken = [0.0; 4];
            for turn in 0..By::ALL.len() {
                let i = (turn + round) % By::ALL.len();
                let time = lent.timed(kind, By::ALL[i], calls[i]);
                taken[i] = time.as_nanos() as f64 / f64::from(calls[i]);
            }
            let [bytes, words, model_bytes, model_words] = taken;
            text += &format!("{} {bytes} {words} {model_bytes} {model_words}\n", kind.name());
        }
    }
    Ok(text)
}

/// Makes a call so often, by one of the four, for its instructions to be counted.
pub fn make(folder: &Path, kind: &str, by: &str, calls: u32) -> Result<String> {
    let kind = KINDS.into_iter().find(|one| one.name() == kind);
    let by = By::ALL.into_iter().find(|one| one.name() == by);
    let (Some(kind), Some(by)) = (kind, by) else {
        return Err(failed("no such call, or nobody makes it"));
    };
    Lent::in_folder(folder)?.timed(kind, by, calls);
    Ok(String::new())
}
