//! The samples of the repository as bytes.

use std::fs::read_to_string;

pub const SAMPLES: &str = concat!(env!("CARGO_MANIFEST_DIR"), "/../../samples");

pub fn bytes(words: &[u32]) -> Vec<u8> {
    words.iter().flat_map(|word| word.to_le_bytes()).collect()
}

/// The decimal words of a file, without its remarks, as bytes.
fn read(path: &str) -> Vec<u8> {
    let text = read_to_string(path).unwrap_or_else(|error| panic!("{path}: {error}"));
    let words = text.lines().flat_map(|line| line.split('#').next().unwrap().split_whitespace());
    bytes(&words.map(|word| word.parse().unwrap()).collect::<Vec<u32>>())
}

/// Net and sheet of a sample.
pub fn sample(name: &str) -> (Vec<u8>, Vec<u8>) {
    (read(&format!("{SAMPLES}/{name}/net.txt")), read(&format!("{SAMPLES}/{name}/sheet.txt")))
}

/// The samples that the list of samples has, each with the first line of its answer.
pub fn listed() -> Vec<(String, String)> {
    let list = read_to_string(format!("{SAMPLES}/README.md")).unwrap();
    let rows = list.lines().filter_map(|line| line.strip_prefix("| `"));
    let row = |row: &str| {
        let (name, rest) = row.split_once("` | `")?;
        Some((name.to_string(), rest.split_once('`')?.0.to_string()))
    };
    rows.filter_map(row).collect()
}
