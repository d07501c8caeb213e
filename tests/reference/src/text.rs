//! Cases as text, as the program `calls` plays them, and the lines that it prints.
//!
//! A case is the number of an operation, then its arguments:
//!
//! | Operation | Arguments |
//! |---|---|
//! | 1 net check | net |
//! | 2 sheet check | net, sheet, scratch |
//! | 3 place bounds | net, sheet, out, scratch |
//! | 4 fresh walker | net |
//! | 5 single firing | net, sheet, node, 32 counts, transition, scratch |
//! | 6 run | net, sheet, record, out, scratch |
//! | 7 short form | net, sheet, out, scratch |
//! | 8 weights | net, transition, place |
//! | 9 replay | net, sheet, log, taken, put, scratch |
//! | 10 mending | net, sheet, out, list, scratch |
//! | 11 composition | net, number, four sheets, out, scratch |
//! | 12 trimming | net, sheet, out, list, scratch |
//! | 13 reaction times | net, sheet, durations, out, scratch |
//! | 14 comparison | net, sheet, sheet, out, out, scratch |
//! | 15 sheet check by the plain engine | net, sheet, scratch |
//!
//! A call of the small panel has its operation's number plus 100; operations without scratch have
//! none, nor those from 11 on.
//!
//! Net, sheet, record, log and durations are their length and their words; out, list, taken, put and scratch the
//! length lent: these hold 9 before the call, and scratch 7. Numbers are decimal and parted by
//! anything that is no digit; `#` starts a comment that ends with the line. 0 for an operation, or the
//! end, ends.

use crate::call::{Call, Kind, Outcome};
use crate::model;

const OUT: u32 = 9;
const SCRATCH: u32 = 7;

/// A call, or the question for the weights of a transition and a place.
pub enum Case {
    Call(Call),
    Weights { net: Vec<u32>, transition: u32, place: u32 },
}

const WEIGHTS: u32 = 8;
/// What the numbers of the panel's calls have more.
const PANEL: u32 = 100;

// ---- Reading ----

/// The numbers of a text, their lowest 32 bits.
pub struct Numbers(std::vec::IntoIter<u32>);

impl Numbers {
    pub fn new(text: &str) -> Numbers {
        let plain = text.lines().filter_map(|line| line.split('#').next());
        let parts = plain.flat_map(|line| line.split(|c: char| !c.is_ascii_digit()));
        let numbers: Vec<u32> = parts.filter(|digits| !digits.is_empty()).map(number).collect();
        Numbers(numbers.into_iter())
    }

    /// The next number, 0 where there is none.
    fn next(&mut self) -> u32 {
        self.0.next().unwrap_or(0)
    }

    /// A length and that many words.
    fn words(&mut self) -> Vec<u32> {
        let length = self.next();
        (0..length).map(|_| self.next()).collect()
    }

    fn buffer<T: Clone>(&mut self, blank: T) -> Vec<T> {
        vec![blank; self.next() as usize]
    }
}

fn number(digits: &str) -> u32 {
    let longer = |n: u32, b: u8| n.wrapping_mul(10).wrapping_add(u32::from(b - b'0'));
    digits.bytes().fold(0, longer)
}

impl Case {
    /// The next case of a text; nothing where the cases end.
    pub fn read(from: &mut Numbers) -> Option<Case> {
        let operation = from.next();
        if operation == WEIGHTS {
            let net = from.words();
            let (transition, place) = (from.next(), from.next());
            return Some(Case::Weights { net, transition, place });
        }
        let (panel, number) = (operation > PANEL, operation % PANEL);
        let kind = Kind::ALL.into_iter().find(|kind| kind.operation() == number)?;
        if operation > 2 * PANEL || panel && !kind.on_panel() {
            return None;
        }
        let net = from.words();
        let number = if kind == Kind::Compose { from.next() } else { 0 };
        let sheet = if kind.reads_sheet() { from.words() } else { Vec::new() };
        let mut call = Call { panel, number, ..Call::new(kind, &net, &sheet) };
        call.others.iter_mut().for_each(|sheet| *sheet = from.words());
        if kind.has_record() {
            call.record = from.words();
        }
        if kind == Kind::SingleFiring {
            call.walker.iter_mut().for_each(|word| *word = from.next());
            call.transition = from.next();
        }
        if kind.writes_out() {
            call.out = from.buffer(OUT);
        }
        if kind.writes_list() {
            call.list = from.buffer(OUT);
        }
        if kind.writes_sums() {
            call.sums = [from.buffer(u64::from(OUT)), from.buffer(u64::from(OUT))];
        }
        if kind.reads_sheet() {
            call.scratch = from.buffer(SCRATCH);
        }
        Some(Case::Call(call))
    }
}

// ---- Writing ----

impl Case {
    /// The case as a line; `read` reads it back.
    pub fn text(&self) -> String {
        match self {
            Case::Call(call) => call.text(),
            Case::Weights { net, transition, place } => {
                format!("{WEIGHTS} net {} | transition {transition} | place {place}", counted(net))
            }
        }
    }

    /// The line that tells what the model answers and leaves in the buffers.
    pub fn answer(&self) -> String {
        match self {
            Case::Call(call) => call.put().line(call),
            Case::Weights { net, transition, place } => {
                let [taken, put, start, capacity] = model::weights(net, *transition, *place);
                format!("taken {taken} put {put} start {start} capacity {capacity}")
            }
        }
    }
}

impl Call {
    pub fn text(&self) -> String {
        let mut text = format!("{} net {}", self.operation(), counted(&self.net));
        if self.kind == Kind::Compose {
            text += &format!(" | number {}", self.number);
        }
        if self.kind.reads_sheet() {
            text += &format!(" | sheet {}", counted(&self.sheet));
        }
        for sheet in &self.others {
            text += &format!(" | sheet {}", counted(sheet));
        }
        if self.kind.has_record() {
            let name = match self.kind {
                Kind::Run => "record",
                Kind::React => "durations",
                _ => "log",
            };
            text += &format!(" | {name} {}", counted(&self.record));
        }
        if self.kind == Kind::SingleFiring {
            let (node, counts) = (self.walker[0], &self.walker[1..]);
            text += &format!(" | node {node} counts {}", listed(counts));
            text += &format!(" | transition {}", self.transition);
        }
        if self.kind.writes_out() {
            text += &format!(" | out {}", self.out.len());
        }
        if self.kind.writes_list() {
            let name = if self.kind == Kind::Compare { "out" } else { "list" };
            text += &format!(" | {name} {}", self.list.len());
        }
        if self.kind.writes_sums() {
            let [taken, put] = [0, 1].map(|i| self.sums[i].len());
            text += &format!(" | taken {taken} | put {put}");
        }
        if self.kind.reads_sheet() {
            text += &format!(" | scratch {}", self.scratch.len());
        }
        text
    }
}

/// The first line of an answer: number, kind of position, position.
pub fn position(reply: &[u64]) -> String {
    let kind = ["none", "entry", "place", "node", "record"][reply[1] as usize];
    format!("answer {} {kind} {}", reply[0], reply[2])
}

impl Outcome {
    /// The answer, the call's own numbers, the walker, each output buffer up to its last number that
    /// is not 9, and of scratch how many words are 0, how many are 7, and where the first 7 is.
    pub fn line(&self, call: &Call) -> String {
        let mut line = position(&self.reply);
        for (name, number) in call.kind.own().iter().zip(&self.reply[3..]) {
            line += &format!(" {name} {number}");
        }
        if call.kind.hands_walker() {
            let counts = used(&self.walker[1..], 0);
            line += &format!(" node {} counts{}", self.walker[0], blanked(counts));
        }
        if call.kind.writes_out() {
            line += &left(&self.out, OUT);
        }
        if call.kind.writes_list() {
            line += &left(&self.list, OUT);
        }
        if call.kind.writes_sums() {
            line += &self.sums.iter().map(|sums| left(sums, u64::from(OUT))).collect::<String>();
        }
        if call.kind.reads_sheet() {
            let times = |word: u32| self.scratch.iter().filter(|&&held| held == word).count();
            let first = self.scratch.iter().position(|&held| held == SCRATCH);
            let first = first.unwrap_or(self.scratch.len());
            line += &format!(" scratch {} {} {first}", times(0), times(SCRATCH));
        }
        line
    }
}

/// An output buffer up to its last number that is not `blank`, and how many follow.
fn left<T: PartialEq + std::fmt::Display>(out: &[T], blank: T) -> String {
    let numbers = used(out, blank);
    format!(" out{} rest {}", blanked(numbers), out.len() - numbers.len())
}

/// The numbers up to the last that is not `blank`.
fn used<T: PartialEq>(numbers: &[T], blank: T) -> &[T] {
    let length = numbers.iter().rposition(|number| *number != blank).map_or(0, |last| last + 1);
    &numbers[..length]
}

/// The length of a list, then its words.
fn counted(words: &[u32]) -> String {
    format!("{}:{}", words.len(), blanked(words))
}

/// Numbers with a blank before each.
fn blanked<T: std::fmt::Display>(numbers: &[T]) -> String {
    numbers.iter().map(|number| format!(" {number}")).collect()
}

/// Numbers with blanks between them.
pub fn listed<T: ToString>(numbers: &[T]) -> String {
    let texts: Vec<String> = numbers.iter().map(T::to_string).collect();
    texts.join(" ")
}
