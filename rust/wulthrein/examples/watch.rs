//! Follows a live list of firings, and stops at the first that the sheet does not offer.
//!
//!     watch NET SHEET < FIRINGS
//!
//! NET and SHEET are files of decimal words, as those of samples/; FIRINGS are the numbers of transitions, on one line or on many. In
//! all of them `#` begins a remark. Each firing is told as soon as its line is there. The exit status is 0 where every firing was
//! offered, 1 where something was refused, and 2 where there is trouble.
use std::io::{BufRead, Write};
use std::process::ExitCode;
use wulthrein::{check, fire, Refused, SCRATCH_BYTES};

enum Stop {
    Refused(String),
    Trouble(String),
}

impl From<std::io::Error> for Stop {
    fn from(error: std::io::Error) -> Stop {
        Stop::Trouble(error.to_string())
    }
}

/// The numbers of a text without its remarks.
fn numbers(text: &str) -> Result<Vec<u32>, Stop> {
    let words =
        text.lines().flat_map(|line| line.split('#').next().unwrap_or("").split_whitespace());
    let number =
        |word: &str| word.parse().map_err(|_| Stop::Trouble(format!("{word} is no number")));
    words.map(number).collect()
}

fn bytes_of(path: &str) -> Result<Vec<u8>, Stop> {
    let text =
        std::fs::read_to_string(path).map_err(|error| Stop::Trouble(format!("{path}: {error}")))?;
    Ok(numbers(&text)?.into_iter().flat_map(u32::to_le_bytes).collect())
}

fn watch(net: &str, sheet: &str) -> Result<(), Stop> {
    let (net, sheet) = (bytes_of(net)?, bytes_of(sheet)?);
    let mut scratch = vec![0; SCRATCH_BYTES];
    let mut out = std::io::stdout().lock();
    let checked = check(&net, &sheet, &mut scratch)
        .map_err(|refused| Stop::Refused(format!("the sheet is {refused}")))?;
    writeln!(
        out,
        "accepted: {} nodes, {} arcs, {} await nodes",
        checked.nodes, checked.arcs, checked.awaits
    )?;
    let (mut node, mut fired) = (0, 0);
    for line in std::io::stdin().lock().lines() {
        for transition in numbers(&line?)? {
            let not_offered = |refused: Refused| {
                Stop::Refused(format!(
                    "firing {fired}: transition {transition} at node {node} is {refused}"
                ))
            };
            let next = fire(&net, &sheet, node, transition, &mut scratch).map_err(not_offered)?;
            writeln!(out, "node {node} fires {transition} to node {next}")?;
            (node, fired) = (next, fired + 1);
        }
    }
    writeln!(out, "{fired} fired, at node {node}")?;
    Ok(())
}

fn main() -> ExitCode {
    let words: Vec<String> = std::env::args().skip(1).collect();
    let watched = match words.as_slice() {
        [net, sheet] => watch(net, sheet),
        _ => Err(Stop::Trouble("usage: watch NET SHEET < FIRINGS".to_string())),
    };
    match watched {
        Ok(()) => ExitCode::SUCCESS,
        Err(Stop::Refused(why)) => {
            let _ = writeln!(std::io::stdout(), "{why}"); // nobody may be reading any more
            ExitCode::from(1)
        }
        Err(Stop::Trouble(what)) => {
            eprintln!("watch: {what}");
            ExitCode::from(2)
        }
    }
}
