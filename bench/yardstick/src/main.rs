//! A yardstick: the sheet check and the replay as an engineer writes them in Rust who wants them fast, with dense tables and a row
//! index. Plays the cases of standard input as the program `calls` does, operations 2 and 9 alone, and prints the same lines.

mod check;
mod replay;
mod text;

use std::io::{Read, Write};

fn main() -> std::io::Result<()> {
    let mut given = Vec::new();
    std::io::stdin().read_to_end(&mut given)?;
    std::io::stdout().write_all(text::played(&given).as_bytes())
}
