//! The reference: the calls and the program in ordinary Rust, and comparisons with it.
//!
//! `selftest`, `smallest` and `program` end with the line `N passed, M failed`; the exit status is 0 only where M is
//! 0, and elsewhere where nothing went wrong.

mod arbitration;
#[cfg(archive)]
mod byte_calls;
#[cfg(archive)]
mod bytes;
mod call;
mod generate;
mod listed;
mod mending;
mod model;
mod panel;
mod program;
mod second;
mod selftest;
mod smallest;
mod sorts;
mod tally;
mod text;
#[cfg(timing)]
mod timing;

use arbitration::Arbitration;
use call::{Call, Kind, OPERATIONS};
use generate::rng::Rng;
use generate::schedules::Schedule;
use mending::Mending;
use sorts::Sorts;
use std::io::{Read, Write};
use std::path::Path;
use std::process::ExitCode;
use tally::Tally;
use text::{Case, Numbers};

const USAGE: &str = "usage: reference selftest
       reference smallest
       reference program CHECKER SEED COUNT
       reference lay SEED INDEX DIR
       reference file DIR
       reference cases SEED COUNT
       reference pairs SEED COUNT
       reference byte-calls COUNT SEED
       reference time-bytes DIR ROUNDS
       reference make-calls DIR check|run|form|fire bytes|words|model-bytes|model-words COUNT
       reference play < CASES
       reference arbitrated < CASES
       reference mended < CASES
       reference sorts < CASES
       reference numbers";

fn main() -> ExitCode {
    let arguments: Vec<String> = std::env::args().skip(1).collect();
    let arguments: Vec<&str> = arguments.iter().map(String::as_str).collect();
    let mut tally = Tally::default();
    match arguments.as_slice() {
        ["play"] => return written(play),
        ["arbitrated"] => return written(arbitrated),
        ["mended"] => return written(mended),
        ["sorts"] => return written(sorts),
        ["numbers"] => return written(|| Ok(numbers())),
        ["file", folder] => return written(|| Ok(program::printed_in(Path::new(folder)))),
        ["cases", seed, count] => {
            if let (Ok(seed), Ok(count)) = (seed.parse(), count.parse()) {
                return written(|| Ok(cases(seed, count)));
            }
            tally.check(false, || USAGE.to_string());
        }
        ["lay", seed, index, folder] => {
            if let (Ok(seed), Ok(index)) = (seed.parse(), index.parse()) {
                let laid = program::lay(seed, index, Path::new(folder));
                return written(|| laid.map(|()| String::new()));
            }
            tally.check(false, || USAGE.to_string());
        }
        ["pairs", seed, count] => {
            if let (Ok(seed), Ok(count)) = (seed.parse(), count.parse()) {
                return written(|| Ok(pairs(seed, count)));
            }
            tally.check(false, || USAGE.to_string());
        }
        ["selftest"] => selftest::run(&mut tally),
        ["smallest"] => smallest::check(&mut tally),
        ["program", checker, seed, count] => match (seed.parse(), count.parse()) {
            (Ok(seed), Ok(count)) => {
                let path = Path::new(checker);
                let compared = program::compare(path, seed, count, &mut tally)
                    .and_then(|()| program::compare_pairs(path, seed, count / 5, &mut tally));
                if let Err(error) = compared {
                    tally.check(false, || format!("{checker}: {error}"));
                }
            }
            _ => tally.check(false, || USAGE.to_string()),
        },
        #[cfg(timing)]
        ["time-bytes", folder, rounds] => {
            if let Ok(rounds) = rounds.parse() {
                return written(|| timing::time(Path::new(folder), rounds));
            }
            tally.check(false, || USAGE.to_string());
        }
        #[cfg(timing)]
        ["make-calls", folder, kind, by, count] => {
            if let Ok(count) = count.parse() {
                return written(|| timing::make(Path::new(folder), kind, by, count));
            }
            tally.check(false, || USAGE.to_string());
        }
        #[cfg(archive)]
        ["byte-calls", count, seed] => match (count.parse(), seed.parse()) {
            (Ok(count), Ok(seed)) => byte_calls::compare(count, seed, &mut tally),
            _ => tally.check(false, || USAGE.to_string()),
        },
        _ => tally.check(false, || USAGE.to_string()),
    }
    println!("{} passed, {} failed", tally.passed, tally.failed);
    ExitCode::from(u8::from(tally.failed > 0))
}

/// Writes a text to standard output, all at once.
fn written(text: impl FnOnce() -> std::io::Result<String>) -> ExitCode {
    match text().and_then(|text| std::io::stdout().write_all(text.as_bytes())) {
        Ok(()) => ExitCode::SUCCESS,
        Err(error) => {
            eprintln!("{error}");
            ExitCode::FAILURE
        }
    }
}

/// The cases of standard input.
fn given() -> std::io::Result<Vec<Case>> {
    let mut text = String::new();
    std::io::stdin().read_to_string(&mut text)?;
    let mut numbers = Numbers::new(&text);
    Ok(std::iter::from_fn(|| Case::read(&mut numbers)).collect())
}

/// A line for each case of standard input.
fn play() -> std::io::Result<String> {
    Ok(given()?.iter().map(|case| case.answer() + "\n").collect())
}

/// On how many cases of standard input arbitration tells.
fn arbitrated() -> std::io::Result<String> {
    let mut met = Arbitration::default();
    for case in given()? {
        if let Case::Call(call) = case {
            met.count(&call, &call.put());
        }
    }
    Ok(met.line() + "\n")
}

/// What the counts of the mended sheets of standard input were, and why others cannot be mended.
fn mended() -> std::io::Result<String> {
    let mut met = Mending::default();
    for case in given()? {
        if let Case::Call(call) = case {
            met.count(&call, &call.put());
        }
    }
    Ok(met.line() + "\n")
}

/// Of which sorts the calls of standard input were.
fn sorts() -> std::io::Result<String> {
    let mut met = Sorts::default();
    for case in given()? {
        if let Case::Call(call) = case {
            met.count(&call, &call.put());
        }
    }
    Ok(met.lines())
}

/// A line for each operation of which cases are made: its number, then each that it answers.
fn numbers() -> String {
    let line = |kind: &Kind| {
        let numbers: Vec<u64> = kind.numbers().into_iter().collect();
        format!("{} {}\n", kind.operation(), text::listed(&numbers))
    };
    OPERATIONS.iter().map(line).collect()
}

/// Generated cases, one to a line, and behind them the sheet checks among them once more, for the plain
/// engine.
fn cases(seed: u64, count: u64) -> String {
    let case = |index| generate::case(&mut Rng::for_case(seed, index));
    let cases: Vec<Case> = (0..count).map(case).collect();
    let plainly = |case: &Case| match case {
        Case::Call(call) if OPERATIONS.contains(&Kind::Plain) => call.plainly(),
        _ => None,
    };
    let again = cases.iter().filter_map(plainly).map(Case::Call);
    cases
        .iter()
        .map(Case::text)
        .chain(again.map(|case| case.text()))
        .map(|line| line + "\n")
        .collect()
}

/// Accepted sheets two by two, each pair of one net, as sheet checks on two lines. Where no second
/// sheet is found, there is no pair.
fn pairs(seed: u64, count: u64) -> String {
    let pair = |index| {
        let rng = &mut Rng::for_case(seed, index);
        let schedule = generate::schedule(rng);
        let other = generate::twins::sibling(rng, &schedule)?;
        let line = |made: &Schedule| {
            let (net, sheet) = made.words();
            Call::new(Kind::SheetCheck, &net, &sheet).text() + "\n"
        };
        Some(line(&schedule) + &line(&other))
    };
    (0..count).filter_map(pair).collect()
}
