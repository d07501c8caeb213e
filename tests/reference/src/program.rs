//! The program: how it reads `net.bin` and `sheet.bin` (§12.1), what it prints (§12.6, §12.7), and
//! a comparison of a program with that.

use crate::generate::schedules::Schedule;
use crate::generate::{self, rng::Rng};
use crate::model::{self, FORM, SCRATCH};
use crate::second;
use crate::tally::Tally;
use crate::text::{listed, position};
use std::path::{Path, PathBuf};
use std::process::Command;

/// Words handed on of a longer file: §1.7.
const NET_WORDS: usize = 4_228;
const SHEET_WORDS: usize = 8_195;

/// The words of a file (§12.1); nothing where it has a tail (§12.4). Of a longer file only the
/// first words are taken, and it has no tail (§12.3).
fn words(bytes: &[u8], most: usize) -> Option<Vec<u32>> {
    let bytes = &bytes[..bytes.len().min(4 * most)];
    let whole = bytes.chunks_exact(4);
    if !whole.remainder().is_empty() {
        return None;
    }
    Some(whole.map(|four| u32::from_le_bytes([four[0], four[1], four[2], four[3]])).collect())
}

/// The program's whole output for a refusal.
fn refused(number: u64, kind: u64, at: u64) -> String {
    position(&[number, kind, at]) + "\n"
}

/// The program's whole output for the bytes of its two files.
pub fn printed(net: &[u8], sheet: &[u8]) -> String {
    let Some(net) = words(net, NET_WORDS) else {
        return refused(1, 0, 0);
    };
    let [number, kind, at] = model::net_check(&net);
    if number != 0 {
        return refused(number, kind, at);
    }
    let Some(sheet) = words(sheet, SHEET_WORDS) else {
        return refused(6, 0, 0);
    };
    let scratch = &mut [0; SCRATCH];
    let [number, kind, at, nodes, arcs, awaits] = model::sheet_check(&net, &sheet, scratch);
    if number != 0 {
        return refused(number, kind, at);
    }
    let mut text = format!("answer 0 none 0\nnodes {nodes} arcs {arcs} awaits {awaits}\n");
    let out = &mut [0; FORM];
    model::place_bounds(&net, &sheet, out, scratch);
    for (place, bound) in out[..net[0] as usize].iter().enumerate() {
        text += &format!("place {place} bound {bound}\n");
    }
    let length = model::short_form(&net, &sheet, out, scratch)[3] as usize;
    text + &format!("short {}\n", listed(&out[..length]))
}

/// What the program should print in the folder. A file that is not there is empty (§12.2).
pub fn printed_in(folder: &Path) -> String {
    let bytes = |name: &str| std::fs::read(folder.join(name)).unwrap_or_default();
    printed(&bytes("net.bin"), &bytes("sheet.bin"))
}

// ---- The comparison ----

/// A file as it is laid before the program.
enum File {
    Missing,
    Folder,
    Bytes(Vec<u8>),
}

impl File {
    fn lay(&self, path: &Path) -> std::io::Result<()> {
        match self {
            File::Missing => Ok(()),
            File::Folder => std::fs::create_dir(path),
            File::Bytes(bytes) => std::fs::write(path, bytes),
        }
    }
}

/// Words as a file: mostly as they are, else with a tail, cut short, longer than is read, or no
/// file at all. A size of 0 tells whether a tail was looked for.
fn file(rng: &mut Rng, words: &[u32], most: usize) -> File {
    let mut bytes: Vec<u8> = words.iter().flat_map(|word| word.to_le_bytes()).collect();
    let fill = rng.word() as u8;
    match rng.below(40) {
        0 => return File::Missing,
        1 => return File::Folder,
        2..=5 => bytes.resize(bytes.len() + rng.between(1, 3), fill),
        6 => bytes.truncate(rng.below(bytes.len() + 1)),
        7..=10 => bytes.resize(4 * most - 4 + rng.below(10), fill),
        11 => bytes.resize(5 * most + rng.below(4), fill),
        _ => return File::Bytes(bytes),
    }
    if rng.chance(50) && !bytes.is_empty() {
        bytes[0] = 0;
    }
    File::Bytes(bytes)
}

/// The number of line 1.
fn number(text: &str) -> usize {
    text.split_whitespace().nth(1).and_then(|number| number.parse().ok()).unwrap_or(usize::MAX)
}

/// Tells how often each number was asked for, and checks that none of 0 to 17, 26 and 27 was missed.
fn tell_numbers(times: &[u64; 28], tally: &mut Tally) {
    for number in (0..18).chain([26, 27]) {
        let met = times[number];
        println!("answer {number:>2} {met:>6} times");
        tally.check(met > 0, || format!("no pair of files is to be answered by {number}"));
    }
}

/// A folder of its own for a run of the program, which goes when it is dropped, after a failure too.
struct Folder(PathBuf);

impl Folder {
    fn new() -> std::io::Result<Folder> {
        let path = std::env::temp_dir().join(format!("reference-{}", std::process::id()));
        std::fs::create_dir(&path)?;
        Ok(Folder(path))
    }
}

impl Drop for Folder {
    fn drop(&mut self) {
        let _ = std::fs::remove_dir_all(&self.0);
    }
}

/// All that the program prints in a folder; it ends well and says nothing on standard error, or that
/// is told too.
fn run(checker: &Path, folder: &Path) -> std::io::Result<String> {
    let output = Command::new(checker).current_dir(folder).output()?;
    let mut text = String::from_utf8_lossy(&output.stdout).into_owned();
    if !output.status.success() || !output.stderr.is_empty() {
        text += &format!("{}, {}", output.status, String::from_utf8_lossy(&output.stderr));
    }
    Ok(text)
}

/// Runs the program on `count` pairs of files and compares all that it prints.
pub fn compare(checker: &Path, seed: u64, count: u64, tally: &mut Tally) -> std::io::Result<()> {
    let checker = checker.canonicalize()?;
    let mut times = [0; 28];
    for index in 0..count {
        let folder = Folder::new()?;
        lay(seed, index, &folder.0)?;
        let should = printed_in(&folder.0);
        if let Some(met) = times.get_mut(number(&should)) {
            *met += 1;
        }
        tally.same(&format!("lay {seed} {index} DIR"), run(&checker, &folder.0)?, should);
    }
    tell_numbers(&times, tally);
    Ok(())
}

/// Runs the program on pairs of accepted sheets of one net. What it prints as their short forms is
/// equal exactly where both allow the same, found by exploring the two sheets together.
pub fn compare_pairs(
    checker: &Path,
    seed: u64,
    count: u64,
    tally: &mut Tally,
) -> std::io::Result<()> {
    let checker = checker.canonicalize()?;
    let Folder(folder) = &Folder::new()?;
    let mut pairs = [0, 0];
    for index in 0..count {
        let rng = &mut Rng::for_case(seed, index);
        let schedule = generate::schedule(rng);
        let Some(other) = generate::twins::sibling(rng, &schedule) else {
            continue;
        };
        let same = second::paths::same_language(&schedule.sheet, 0, &other.sheet, 0);
        let forms = [short(&checker, folder, &schedule)?, short(&checker, folder, &other)?];
        let both = forms.iter().all(|form| form.starts_with("short "));
        pairs[usize::from(!same)] += 1;
        tally.check(both && (forms[0] == forms[1]) == same, || {
            format!("pair {index} of seed {seed}: same is {same}\n  {}\n  {}", forms[0], forms[1])
        });
    }
    println!("pairs of sheets that allow the same: {}, that do not: {}", pairs[0], pairs[1]);
    tally.check(pairs.iter().all(|&pairs| pairs > 50), || "too few pairs".to_string());
    Ok(())
}

/// The last line that the program prints for an accepted schedule, or all that it prints.
fn short(checker: &Path, folder: &Path, schedule: &Schedule) -> std::io::Result<String> {
    let (net, sheet) = schedule.words();
    for (name, words) in [("net.bin", net), ("sheet.bin", sheet)] {
        let bytes: Vec<u8> = words.iter().flat_map(|word| word.to_le_bytes()).collect();
        std::fs::write(folder.join(name), bytes)?;
    }
    let text = run(checker, folder)?;
    Ok(text.lines().last().filter(|line| line.starts_with("short ")).unwrap_or(&text).to_string())
}

/// Lays the two files of a case.
pub fn lay(seed: u64, index: u64, folder: &Path) -> std::io::Result<()> {
    let rng = &mut Rng::for_case(seed, index);
    let schedule = generate::schedule(rng);
    let (net, sheet) = generate::words(rng, &schedule);
    file(rng, &net, NET_WORDS).lay(&folder.join("net.bin"))?;
    file(rng, &sheet, SHEET_WORDS).lay(&folder.join("sheet.bin"))
}
