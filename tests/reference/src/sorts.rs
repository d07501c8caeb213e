//! Of which sorts the calls of the later operations were, so that none of them stays untried.

use crate::call::{Call, Kind, Outcome};
use crate::model::{composed, Clash, Net, Sheet, Task, MAX_NODES, TASKS};
use crate::second::paths::closure;
use crate::tally::Tally;
use std::collections::BTreeMap;

/// How many calls of each sort were met.
#[derive(Default)]
pub struct Sorts(BTreeMap<(Kind, &'static str), usize>);

/// A sort, and whether a call is of it.
type Sort = (&'static str, bool);

impl Sorts {
    pub fn count(&mut self, call: &Call, outcome: &Outcome) {
        for (sort, met) in sorts(call, outcome) {
            *self.0.entry((call.kind, sort)).or_insert(0) += usize::from(met);
        }
    }

    /// A line for each kind of call that has sorts.
    pub fn lines(&self) -> String {
        let line = |kind: Kind| {
            let own = self.0.iter().filter(|((of, _), _)| *of == kind);
            let told: String = own.map(|((_, sort), met)| format!(" {sort} {met}")).collect();
            if told.is_empty() {
                told
            } else {
                format!("{}:{told}\n", kind.name())
            }
        };
        Kind::ALL.into_iter().map(line).collect()
    }

    /// Each is met several times.
    pub fn check(&self, tally: &mut Tally) {
        print!("{}", self.lines());
        for ((kind, sort), &met) in &self.0 {
            let name = kind.name();
            tally.check(met >= 3, || format!("{name}: {sort} was met {met} times"));
        }
    }
}

/// The sorts of a call, none of the older kinds.
fn sorts(call: &Call, outcome: &Outcome) -> Vec<Sort> {
    match call.kind {
        Kind::Compose => composition(call, outcome),
        Kind::Trim => trimmed(call, outcome),
        Kind::React => timed(call, outcome),
        Kind::Compare => compared(call, outcome),
        _ => Vec::new(),
    }
}

/// How many tasks are composed, and whether they share places; which sheet is refused; for which
/// reason there is no composed sheet.
fn composition(call: &Call, outcome: &Outcome) -> Vec<Sort> {
    let Outcome { reply, .. } = outcome;
    let Some(net) = Net::spread_out(&call.net) else {
        return Vec::new();
    };
    let (sources, number) = (net.sources(), call.number as usize);
    let words = [&call.sheet].into_iter().chain(&call.others);
    let task = |(&source, words): (&usize, &Vec<u32>)| {
        Sheet::read(&net, words).ok().map(|sheet| Task { source, sheet })
    };
    let tasks: Vec<Task> = sources.iter().zip(words).filter_map(task).collect();
    let accepted = |tasks: usize| reply[0] == 0 && number == tasks;
    let refused = |sheet: u64| reply[4] == sheet;
    let clash = |net: &Net| composed(net, &tasks).err();
    let met = |number: u64, clash_is: Clash| reply[0] == number && clash(&net) == Some(clash_is);
    let uncapped = Net { capacity: vec![None; net.places()], ..net.clone() };
    let by_room = met(30, Clash::Dependent) && clash(&uncapped) != Some(Clash::Dependent);
    let product: usize = tasks.iter().map(|task| task.sheet.nodes()).product();
    let written = call.result(outcome);
    let at_12 = |task: &Task| {
        let offered = task.sheet.offered(reply[2] as usize);
        offered.into_iter().any(|t| t != task.source && net.is_source(t))
    };
    let removed = reply[0] == 12 && tasks.get(reply[4] as usize - 1).map_or(false, at_12);
    vec![
        ("one", accepted(1)),
        ("two", accepted(2)),
        ("three", accepted(3)),
        ("four", accepted(4)),
        ("shared", reply[0] == 0 && shares(&net, &tasks)),
        ("of-128", reply[0] == 0 && product == MAX_NODES as usize),
        ("of-129", reply[0] == 29 && product == MAX_NODES as usize + 1),
        ("product", met(29, Clash::Product)),
        ("starved", met(30, Clash::Dependent) && !by_room),
        ("overfull", by_room),
        ("count", met(29, Clash::Count)),
        ("entries", met(29, Clash::Entries)),
        ("greatest", written.contains(&1_000_000_000)),
        ("full", written.get(1) == Some(&4_096)),
        ("removed", removed),
        ("first", refused(1)),
        ("second", refused(2)),
        ("third", refused(3)),
        ("fourth", refused(4)),
        ("five-sources", reply[0] == 28 && sources.len() > TASKS && number == sources.len()),
        ("other-number", reply[0] == 28 && number <= TASKS),
        ("unread", reply[0] == 0 && tasks.len() == number && past_is_no_sheet(call, &net)),
    ]
}

/// Whether two tasks draw on one place or fill it.
fn shares(net: &Net, tasks: &[Task]) -> bool {
    let fires = |task: &Task, t: usize| task.sheet.arcs.iter().any(|row| row[t].is_some());
    let touches = |task: &Task, p: usize| {
        let at = |t: usize| net.taken[t][p] > 0 || net.put[t][p] > 0;
        (0..net.transitions()).any(|t| at(t) && fires(task, t))
    };
    (0..net.places()).any(|p| tasks.iter().filter(|task| touches(task, p)).count() > 1)
}

/// Whether a slice past the number is no sheet of the net.
fn past_is_no_sheet(call: &Call, net: &Net) -> bool {
    call.others.iter().skip(call.number as usize - 1).any(|words| Sheet::read(net, words).is_err())
}

/// What becomes of a sheet that is trimmed, what its dropped nodes are like, and by what the result is
/// refused.
fn trimmed(call: &Call, outcome: &Outcome) -> Vec<Sort> {
    let Outcome { reply, .. } = outcome;
    let net = Net::spread_out(&call.net).filter(|_| [0, 22].contains(&reply[0]));
    let Some((net, sheet)) = net.and_then(|net| {
        let sheet = Sheet::read(&net, &call.sheet).ok()?;
        Some((net, sheet))
    }) else {
        return Vec::new();
    };
    let (after, kept) = sheet.trimmed();
    let dropped: Vec<usize> = (0..sheet.nodes()).filter(|node| !kept.contains(node)).collect();
    let ways = closure(sheet.nodes(), sheet.all_arcs().into_iter().map(|(n, _, m)| (n, m)));
    let leads = |n: usize, m: usize| ways[n] >> m & 1 == 1;
    let to = |n: usize| sheet.arcs[n].iter().flatten().copied().collect::<Vec<usize>>();
    let is_on_cycle = |&n: &usize| to(n).into_iter().any(|m| m != n && leads(m, n));
    let (nodes, accepted) = (sheet.nodes(), reply[0] == 0);
    let verdict = Call::new(Kind::SheetCheck, &call.net, &after.words()).put().reply[0];
    let short = [call.out.len() < after.words().len(), call.list.len() < kept.len()];
    let lacks_start = sheet.counts[0] != net.start;
    vec![
        ("nothing-dropped", accepted && dropped.is_empty()),
        ("one-of-128", accepted && kept.len() == 1 && nodes == MAX_NODES as usize),
        ("no-arc", accepted && sheet.offered(0).is_empty()),
        ("loop", accepted && dropped.iter().any(|&n| to(n).contains(&n))),
        ("cycle", accepted && dropped.iter().any(is_on_cycle)),
        ("to-kept", accepted && dropped.iter().any(|&n| to(n).iter().any(|m| kept.contains(m)))),
        ("between", accepted && dropped.iter().any(|n| kept.last() > Some(n))),
        ("right", accepted && verdict == 0 && !dropped.is_empty()),
        ("torn", accepted && verdict == 12),
        ("starved", accepted && verdict == 14),
        ("wrong-start", accepted && lacks_start),
        ("homeless", accepted && verdict == 17),
        ("full", accepted && call.sheet[1] == 4_096),
        ("one-short", reply[0] == 22 && short[0] && !short[1]),
        ("other-short", reply[0] == 22 && !short[0] && short[1]),
    ]
}

/// What the durations are like, what is wrong with them, and what the sheet's busy nodes are like.
fn timed(call: &Call, outcome: &Outcome) -> Vec<Sort> {
    let Outcome { reply, .. } = outcome;
    let net = Net::spread_out(&call.net).filter(|_| [0, 32, 33].contains(&reply[0]));
    let Some((net, sheet)) = net.and_then(|net| {
        let sheet = Sheet::read(&net, &call.sheet).ok()?;
        Some((net, sheet))
    }) else {
        return Vec::new();
    };
    let words = &call.record;
    let (accepted, times) = (reply[0] == 0, call.result(outcome));
    let (t, length) = (reply[2] as usize, 1 + 2 * net.transitions());
    let at_fault = if reply[..2] == [32, 1] {
        [words[1 + t], words[1 + net.transitions() + t]]
    } else {
        [0, 0]
    };
    let shapeless = reply[..2] == [32, 0];
    let awaits = (0..sheet.nodes()).filter(|&n| sheet.is_await(&net, n)).count();
    let loops = |n: usize| sheet.arcs[n].contains(&Some(n)) && !sheet.is_await(&net, n);
    let before = reply[0] == 33 && (0..t).any(|n| !sheet.is_await(&net, n));
    let longest = accepted && awaits == 1 && times.iter().any(|&time| time >= 127_000_000);
    let meet =
        |m: usize| sheet.all_arcs().iter().filter(|arc| arc.2 == m && arc.0 != m).count() > 1;
    let busy_meet = (0..sheet.nodes()).any(|m| !sheet.is_await(&net, m) && meet(m));
    vec![
        ("zero", accepted && words[1..].iter().all(|&word| word == 0)),
        ("span", times.chunks(2).any(|pair| pair[0] < pair[1])),
        ("limit", accepted && words.contains(&1_000_000)),
        ("above", at_fault.contains(&1_000_001)),
        ("crossed", at_fault[1] < at_fault[0] && at_fault[0] <= 1_000_000),
        ("length", shapeless && words.len() != length),
        ("other-t", shapeless && words.len() == length),
        ("chain-of-127", accepted && sheet.nodes() == 128 && awaits == 1),
        ("longest", longest),
        ("meet", accepted && busy_meet),
        ("many-awaits", accepted && awaits > 2),
        ("many-sources", accepted && net.sources().len() > 1),
        ("self-loop", reply[0] == 33 && loops(t)),
        ("loop", reply[0] == 33 && !loops(t)),
        ("behind", before),
    ]
}

/// Whether two sheets are equal, allow the same in other words, or not the same with forms that are
/// as long; which of them is refused, and how many of the buffers are short.
fn compared(call: &Call, outcome: &Outcome) -> Vec<Sort> {
    let Outcome { reply, .. } = outcome;
    let (accepted, equal) = (reply[0] == 0, call.sheet == call.others[0]);
    let same = accepted && reply[5] == 1;
    let lengths = if reply[0] == 22 { call.lengths() } else { [0, 0] };
    let short = [call.out.len() < lengths[0], call.list.len() < lengths[1]];
    vec![
        ("equal", same && equal),
        ("same", same && !equal),
        ("different", accepted && reply[5] == 0),
        ("as-long", accepted && reply[5] == 0 && reply[3] == reply[4]),
        ("first", reply[6] == 1),
        ("second", reply[6] == 2),
        ("one-short", short[0] && !short[1]),
        ("other-short", !short[0] && short[1]),
    ]
}
