//! The calls from the customer's scope, the plainest way: tables are dense and numbers are 64 bits
//! wide, so that no sum of the limits comes near their end. `net`, `sheet`, `form`, `mending` and the
//! others are what their names say; here are the refusals and the calls. Clauses are those of
//! `docs/SPEC.md`.

mod comparison;
mod composition;
mod form;
mod mending;
mod net;
mod plain;
mod reaction;
mod sheet;
mod trimming;

pub use composition::{composed, Clash, Task};
pub use mending::Misfit;
pub use net::{Net, Shape};
pub use reaction::Durations;
pub use sheet::Sheet;

/// P and T are at most 32 (§1.3); a walker has 32 counts whatever P is (§10.5).
pub const LINES: usize = 32;
pub const MAX_NODES: u64 = 128;
pub const MAX_ENTRIES: u64 = 4_096;
pub const MAX_WEIGHT: u64 = 1_000_000_000;
/// Firings that a log has at most: §1.9.
pub const MAX_FIRINGS: u64 = 4_096;
/// Seconds that a firing takes at most: request #112.
pub const MAX_DURATION: u64 = 1_000_000;
/// Sheets that a composition has at most: request #108.
pub const TASKS: usize = 4;
/// Words of scratch below which a call is refused by 21: §1.6.
pub const SCRATCH: usize = 8_192;
/// The same for the small panel: §1.12.
pub const PANEL: usize = 1_024;
/// Words that every short form, every mended sheet and every list of changes fits in: §11.7.
pub const FORM: usize = 8_194;
/// Words that every list of changes fits in, one change for each of 32 places at 128 nodes: §10.16.
pub const LIST: usize = 8_193;

/// A node, then 32 counts: §10.5.
pub type Walker = [u32; 1 + LINES];

// ---- Refusals by number ----

/// What a refusal's position counts: §7.52.
#[derive(Clone, Copy)]
pub enum Position {
    Nothing,
    Entry(usize),
    Place(usize),
    Node(usize),
    Record(usize),
}

use Position::{Nothing, Place, Record};

impl Position {
    /// The kind as a number (§8.2), then the index.
    fn plain(self) -> [u64; 2] {
        match self {
            Position::Nothing => [0, 0],
            Position::Entry(i) => [1, i as u64],
            Position::Place(i) => [2, i as u64],
            Position::Node(i) => [3, i as u64],
            Position::Record(i) => [4, i as u64],
        }
    }
}

pub struct Refusal {
    number: u64,
    at: Position,
    /// Which sheet is refused, by a call that reads several.
    sheet: Option<usize>,
}

fn refuse<T>(number: u64, at: Position) -> Result<T, Refusal> {
    Err(Refusal { number, at, sheet: None })
}

/// The plain numbers of an answer: number, kind, position, then the call's own (§8.1), which are 0
/// where it is refused (§8.3); an accepted one has no position. Of a call that reads several sheets
/// the last tells which of them is refused.
fn plain<const N: usize>(answer: Result<Vec<u64>, Refusal>) -> [u64; N] {
    let mut reply = [0; N];
    match answer {
        Ok(own) => reply[3..].copy_from_slice(&own),
        Err(refusal) => {
            reply[0] = refusal.number;
            reply[1..3].copy_from_slice(&refusal.at.plain());
            if refusal.sheet.is_some() {
                reply[N - 1] = sent(refusal.sheet.map(|sheet| sheet as u64));
            }
        }
    }
    reply
}

/// An own number that may be missing: §8.4.
fn sent(number: Option<u64>) -> u64 {
    number.map_or(0, |number| number + 1)
}

// ---- What the calls share ----

/// The checks that begin every call on a sheet: scratch, the net, the sheet (§7.54). Scratch that
/// passes 21 is cleared whatever the answer (§9.3).
fn accept(net: &[u32], sheet: &[u32], scratch: &mut [u32]) -> Result<(Net, Sheet), Refusal> {
    let net = accept_net(net, scratch)?;
    let sheet = Sheet::read(&net, sheet)?;
    sheet.check_schedule(&net)?;
    Ok((net, sheet))
}

/// The first of these: scratch and the net.
fn accept_net(net: &[u32], scratch: &mut [u32]) -> Result<Net, Refusal> {
    if scratch.len() < SCRATCH {
        return refuse(21, Nothing);
    }
    scratch[..SCRATCH].fill(0);
    Net::read(net)
}

/// The checks of one of several sheets, of the net with one source kept if one is named.
fn accept_sheet(
    net: &Net,
    words: &[u32],
    kept: Option<usize>,
    index: usize,
) -> Result<Sheet, Refusal> {
    let checked = Sheet::read(net, words).and_then(|sheet| {
        sheet.check_task(net, kept)?;
        Ok(sheet)
    });
    checked.map_err(|refusal| Refusal { sheet: Some(index), ..refusal })
}

/// 22 where the result does not fit (§9.6); otherwise writes it and leaves the rest (§9.4).
fn write(out: &mut [u32], result: &[u32]) -> Result<(), Refusal> {
    if out.len() < result.len() {
        return refuse(22, Nothing);
    }
    out[..result.len()].copy_from_slice(result);
    Ok(())
}

/// A marking as words; no count is above 2,000,000,000.
fn as_words(marking: &[u64]) -> Vec<u32> {
    marking.iter().map(|&count| count as u32).collect()
}

/// The walker at a node with a marking, its counts from P on being 0.
fn walker_at(node: usize, marking: &[u64]) -> Walker {
    let mut walker = [0; 1 + LINES];
    walker[0] = node as u32;
    walker[1..1 + marking.len()].copy_from_slice(&as_words(marking));
    walker
}

// ---- The calls ----

/// Net check: §10.1.
pub fn net_check(net: &[u32]) -> [u64; 3] {
    plain(Net::read(net).map(|_| vec![]))
}

/// What a transition takes and puts at a place, what the place starts with and, as 1 more than it
/// is, its capacity: §10.2, §2.8, §8.4. Of a refused net `docs/DECISIONS.md` decides: one that 1 or
/// 2 refuses has none, one that 3 or 4 refuses what is found by halving, where 0 is no capacity,
/// one that 26 or 5 refuses its weights.
pub fn weights(net: &[u32], transition: u32, place: u32) -> [u64; 4] {
    let Ok(shape) = Shape::read(net) else {
        return [0; 4];
    };
    let Some(net) = Net::spread_out(net) else {
        let [taken, put, start, capacity] = shape.halved(u64::from(transition), u64::from(place));
        return [taken, put, start, if capacity == 0 { 0 } else { capacity + 1 }];
    };
    let (t, p) = (transition as usize, place as usize);
    let at = |row: Option<&Vec<u64>>| row.and_then(|row| row.get(p)).copied().unwrap_or(0);
    let capacity = net.capacity.get(p).copied().flatten().map_or(0, |most| most + 1);
    [at(net.taken.get(t)), at(net.put.get(t)), at(Some(&net.start)), capacity]
}

/// Schedule check: §10.3.
pub fn sheet_check(net: &[u32], sheet: &[u32], scratch: &mut [u32]) -> [u64; 6] {
    let answer = accept(net, sheet, scratch).map(|(net, sheet)| {
        let awaits = (0..sheet.nodes()).filter(|&node| sheet.is_await(&net, node)).count();
        vec![sheet.nodes() as u64, sheet.all_arcs().len() as u64, awaits as u64]
    });
    plain(answer)
}

/// The same by the plain engine, which reads only what is spread out: request #111.
pub fn plain_check(net: &[u32], sheet: &[u32], scratch: &mut [u32]) -> [u64; 6] {
    let answer = accept_net(net, scratch).and_then(|net| {
        let sheet = Sheet::read(&net, sheet)?;
        plain::Tables::new(&net, &sheet).check()
    });
    plain(answer)
}

/// Place bounds: §10.4.
pub fn place_bounds(net: &[u32], sheet: &[u32], out: &mut [u32], scratch: &mut [u32]) -> [u64; 3] {
    let answer = accept(net, sheet, scratch).and_then(|(net, sheet)| {
        let mut bounds = vec![0; net.places()];
        for counts in &sheet.counts {
            for p in 0..net.places() {
                bounds[p] = bounds[p].max(counts[p]);
            }
        }
        write(out, &as_words(&bounds))?;
        Ok(vec![])
    });
    plain(answer)
}

/// Fresh walker, all zero where the net is refused: §10.6.
pub fn fresh_walker(net: &[u32], walker: &mut Walker) -> [u64; 3] {
    let net = Net::read(net);
    *walker = net.as_ref().map_or([0; 1 + LINES], |net| walker_at(0, &net.start));
    plain(net.map(|_| vec![]))
}

/// Single firing: hands back the walker that follows, where refused the same one (§10.7), and tells
/// the entry of the arc (§10.13).
pub fn single_firing(
    net: &[u32],
    sheet: &[u32],
    walker: &mut Walker,
    transition: u32,
    scratch: &mut [u32],
) -> [u64; 4] {
    let answer = accept(net, sheet, scratch).and_then(|(net, sheet)| {
        let node = walker[0] as usize;
        if node >= sheet.nodes() {
            return refuse(18, Nothing);
        }
        let marking = &sheet.counts[node];
        let standing = walker_at(node, marking);
        if let Some(p) = (0..LINES).find(|&p| walker[1 + p] != standing[1 + p]) {
            return refuse(19, Place(p));
        }
        let Some(target) = sheet.arc(node, transition) else {
            return refuse(20, Nothing);
        };
        *walker = walker_at(target, &net.fire(marking, transition as usize));
        Ok(vec![sent(sheet.entry(node, transition))])
    });
    plain(answer)
}

/// Run: §10.8, §10.13.
pub fn run(
    net: &[u32],
    sheet: &[u32],
    record: &[u32],
    out: &mut [u32],
    scratch: &mut [u32],
) -> [u64; 6] {
    let answer = accept(net, sheet, scratch).and_then(|(net, sheet)| {
        let (mut node, mut marking, mut last) = (0, net.start.clone(), None);
        for (i, &t) in record.iter().enumerate() {
            let Some(target) = sheet.arc(node, t) else {
                return refuse(20, Record(i));
            };
            last = Some((node, t));
            (node, marking) = (target, net.fire(&marking, t as usize));
        }
        write(out, &as_words(&marking))?;
        Ok(vec![record.len() as u64, node as u64, sent(sheet.last_entry(last))])
    });
    plain(answer)
}

/// The transitions of a log and the nodes that it names: §10.10. N is looked at before the length.
fn read_log(log: &[u32]) -> Result<(&[u32], &[u32]), Refusal> {
    match log.split_first() {
        Some((&n, rest)) if u64::from(n) <= MAX_FIRINGS && rest.len() == 2 * n as usize => {
            Ok(rest.split_at(n as usize))
        }
        _ => refuse(23, Nothing),
    }
}

/// Replay: §10.11, §10.13. The sums are those of §10.12, firing by firing.
pub fn replay(
    net: &[u32],
    sheet: &[u32],
    log: &[u32],
    taken: &mut [u64],
    put: &mut [u64],
    scratch: &mut [u32],
) -> [u64; 6] {
    let answer = accept(net, sheet, scratch).and_then(|(net, sheet)| {
        let (firings, named) = read_log(log)?;
        let places = net.places();
        let (mut from, mut into) = (vec![0; places], vec![0; places]);
        let (mut node, mut last) = (0, None);
        for (i, (&t, &name)) in firings.iter().zip(named).enumerate() {
            let Some(target) = sheet.arc(node, t) else {
                return refuse(20, Record(i));
            };
            if name as usize != target {
                return refuse(24, Record(i));
            }
            for p in 0..places {
                from[p] += net.taken[t as usize][p];
                into[p] += net.put[t as usize][p];
            }
            last = Some((node, t));
            node = target;
        }
        if taken.len() < places || put.len() < places {
            return refuse(22, Nothing);
        }
        taken[..places].copy_from_slice(&from);
        put[..places].copy_from_slice(&into);
        Ok(vec![from.iter().sum(), into.iter().sum(), sent(sheet.last_entry(last))])
    });
    plain(answer)
}

/// Short form: §10.9.
pub fn short_form(net: &[u32], sheet: &[u32], out: &mut [u32], scratch: &mut [u32]) -> [u64; 4] {
    let answer = accept(net, sheet, scratch).and_then(|(_, sheet)| {
        let words = sheet.minimal_form().words();
        write(out, &words)?;
        Ok(vec![words.len() as u64])
    });
    plain(answer)
}

/// Mending: §10.14. The checks are those of §7.62.
pub fn mend(
    net: &[u32],
    sheet: &[u32],
    out: &mut [u32],
    list: &mut [u32],
    scratch: &mut [u32],
) -> [u64; 5] {
    let answer = accept_net(net, scratch).and_then(|net| {
        let given = Sheet::read_arcs(&net, sheet)?;
        given.check_offers(&net, None)?;
        given.check_paths(&net, None)?;
        let Ok(mended) = given.mended(&net) else {
            return refuse(25, Nothing);
        };
        let (words, changes) = (mended.words(), given.changes(&mended));
        if out.len() < words.len() || list.len() < changes.len() {
            return refuse(22, Nothing);
        }
        write(out, &words)?;
        write(list, &changes)?;
        Ok(vec![words.len() as u64, changes.len() as u64])
    });
    plain(answer)
}

/// Composition: one sheet from a sheet for each source, in rising order, of which none past the number
/// is read (request #108). Each is checked whole before the next.
pub fn compose(
    net: &[u32],
    number: u32,
    sheets: [&[u32]; TASKS],
    out: &mut [u32],
    scratch: &mut [u32],
) -> [u64; 5] {
    let answer = accept_net(net, scratch).and_then(|net| {
        let sources = net.sources();
        if sources.len() > TASKS || number as usize != sources.len() {
            return refuse(28, Nothing);
        }
        let mut tasks = Vec::new();
        for (index, source) in sources.into_iter().enumerate() {
            let sheet = accept_sheet(&net, sheets[index], Some(source), index)?;
            tasks.push(Task { source, sheet });
        }
        let composed = composed(&net, &tasks).or_else(|clash| match clash {
            Clash::Dependent => refuse(30, Nothing),
            Clash::Product | Clash::Count | Clash::Entries => refuse(29, Nothing),
        });
        let words = composed?.words();
        write(out, &words)?;
        Ok(vec![words.len() as u64, 0])
    });
    plain(answer)
}

/// Trimming: the sheet without what is not reached, and the old numbers of what is (request #109).
/// Nothing past the entries is asked.
pub fn trim(
    net: &[u32],
    sheet: &[u32],
    out: &mut [u32],
    list: &mut [u32],
    scratch: &mut [u32],
) -> [u64; 5] {
    let answer = accept_net(net, scratch).and_then(|net| {
        let (trimmed, kept) = Sheet::read(&net, sheet)?.trimmed();
        let words = trimmed.words();
        let old: Vec<u32> = kept.into_iter().map(|node| node as u32).collect();
        if out.len() < words.len() || list.len() < old.len() {
            return refuse(22, Nothing);
        }
        write(out, &words)?;
        write(list, &old)?;
        Ok(vec![words.len() as u64, old.len() as u64])
    });
    plain(answer)
}

/// Reaction times: the best and the worst until the sheet waits again, for each await node and each
/// source (request #112).
pub fn react(
    net: &[u32],
    sheet: &[u32],
    durations: &[u32],
    out: &mut [u32],
    scratch: &mut [u32],
) -> [u64; 4] {
    let answer = accept(net, sheet, scratch).and_then(|(net, sheet)| {
        let durations = Durations::read(&net, durations)?;
        let times = sheet.reaction_times(&net, &durations)?;
        write(out, &times)?;
        Ok(vec![times.len() as u64])
    });
    plain(answer)
}

/// Comparison: the short forms of two sheets (§10.9), and whether both allow the same. The first
/// sheet is checked whole before the second.
pub fn compare(
    net: &[u32],
    sheets: [&[u32]; 2],
    outs: [&mut [u32]; 2],
    scratch: &mut [u32],
) -> [u64; 7] {
    let answer = accept_net(net, scratch).and_then(|net| {
        let first = accept_sheet(&net, sheets[0], None, 0)?;
        let second = accept_sheet(&net, sheets[1], None, 1)?;
        let forms = [first.minimal_form().words(), second.minimal_form().words()];
        if (0..2).any(|i| outs[i].len() < forms[i].len()) {
            return refuse(22, Nothing);
        }
        for (out, form) in outs.into_iter().zip(&forms) {
            write(out, form)?;
        }
        let same = u64::from(first.allows_same(&second));
        Ok(vec![forms[0].len() as u64, forms[1].len() as u64, same, 0])
    });
    plain(answer)
}
