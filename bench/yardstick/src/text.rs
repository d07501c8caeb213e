//! Cases as text, and the lines that tell what a call answers and leaves in the buffers that it was lent.

use crate::check::{self, Refusal, Tables};
use crate::replay;
use std::fmt::Write;

const OUT: u64 = 9;
const SCRATCH: u32 = 7;
const SCRATCH_WORDS: usize = 8192;

/// Numbers are decimal and parted by anything that is no digit; `#` starts a comment that ends with the line.
struct Numbers<'a>(&'a [u8]);

impl Numbers<'_> {
    /// The next number's lowest 32 bits, 0 where there is none.
    fn next(&mut self) -> u32 {
        while let Some(&byte) = self.0.first() {
            if byte.is_ascii_digit() {
                break;
            }
            let past = if byte == b'#' { self.0.iter().position(|&b| b == b'\n') } else { Some(1) };
            self.0 = &self.0[past.unwrap_or(self.0.len())..];
        }
        let mut number = 0u32;
        while let Some(&byte @ b'0'..=b'9') = self.0.first() {
            number = number.wrapping_mul(10).wrapping_add(u32::from(byte - b'0'));
            self.0 = &self.0[1..];
        }
        number
    }

    fn words(&mut self) -> Vec<u32> {
        let length = self.next();
        (0..length).map(|_| self.next()).collect()
    }

    fn buffer<T: Clone>(&mut self, blank: T) -> Vec<T> {
        vec![blank; self.next() as usize]
    }
}

/// A line for each case, up to the first that is neither a sheet check nor a replay.
pub fn played(given: &[u8]) -> String {
    let mut numbers = Numbers(given);
    let mut lines = String::new();
    let mut tables = Tables::new();
    loop {
        match numbers.next() {
            2 => checked(&mut numbers, &mut tables, &mut lines),
            9 => replayed(&mut numbers, &mut tables, &mut lines),
            _ => return lines,
        }
    }
}

fn checked(numbers: &mut Numbers, tables: &mut Tables, lines: &mut String) {
    let (net, sheet) = (numbers.words(), numbers.words());
    let mut scratch = numbers.buffer(SCRATCH);
    let told = lent(&mut scratch, || check::check(&net, &sheet, tables));
    let [nodes, arcs, awaits] = told.as_ref().map_or([0; 3], |numbers| *numbers);
    answer(lines, &told);
    let _ = write!(lines, " nodes {nodes} arcs {arcs} awaits {awaits}");
    left_scratch(lines, &scratch);
}

fn replayed(numbers: &mut Numbers, tables: &mut Tables, lines: &mut String) {
    let (net, sheet, log) = (numbers.words(), numbers.words(), numbers.words());
    let (mut taken, mut put) = (numbers.buffer(OUT), numbers.buffer(OUT));
    let mut scratch = numbers.buffer(SCRATCH);
    let told =
        lent(&mut scratch, || replay::replay(&net, &sheet, &log, &mut taken, &mut put, tables));
    let [all_taken, all_put, entry] = told.as_ref().map_or([0; 3], |numbers| *numbers);
    answer(lines, &told);
    let _ = write!(lines, " taken {all_taken} put {all_put} entry {entry}");
    left(lines, &taken);
    left(lines, &put);
    left_scratch(lines, &scratch);
}

/// A call with the scratch that it borrows and leaves cleared.
fn lent<T>(scratch: &mut [u32], call: impl FnOnce() -> Result<T, Refusal>) -> Result<T, Refusal> {
    if scratch.len() < SCRATCH_WORDS {
        return Err(Refusal { number: 21, kind: 0, index: 0 });
    }
    let told = call();
    scratch[..SCRATCH_WORDS].fill(0);
    told
}

fn answer<T>(lines: &mut String, told: &Result<T, Refusal>) {
    let (number, kind, index) =
        told.as_ref().err().map_or((0, 0, 0), |r| (r.number, r.kind, r.index));
    let kind = ["none", "entry", "place", "node", "record"][kind];
    let _ = write!(lines, "answer {number} {kind} {index}");
}

/// An output buffer up to its last number that is not 9, and how many follow.
fn left(lines: &mut String, out: &[u64]) {
    let used = out.iter().rposition(|&number| number != OUT).map_or(0, |last| last + 1);
    lines.push_str(" out");
    for number in &out[..used] {
        let _ = write!(lines, " {number}");
    }
    let _ = write!(lines, " rest {}", out.len() - used);
}

// A function of its own in the machine code, so that a measurement can leave it out.
#[inline(never)]
fn left_scratch(lines: &mut String, scratch: &[u32]) {
    let times = |word: u32| scratch.iter().filter(|&&held| held == word).count();
    let first = scratch.iter().position(|&held| held == SCRATCH).unwrap_or(scratch.len());
    let _ = writeln!(lines, " scratch {} {} {first}", times(0), times(SCRATCH));
}
