//! What holds of composed sheets (request #108): they are accepted as sheets of the whole net, a list
//! that serves a task is one of the task's own, and two tasks are served in either order.

use super::{generate, Call, Kind, Rng, Sheet, Tally, SCHEDULES, SEED};
use crate::generate::schedules::net_words;
use crate::generate::tasks::Tasks;
use crate::model::Task;

pub fn check(tally: &mut Tally) {
    let mut met = [0, 0];
    for index in 0..SCHEDULES {
        let rng = &mut Rng::for_case(SEED + 3, index);
        let tasks = generate::tasks::any(rng);
        met[usize::from(composed(tally, rng, &tasks))] += 1;
    }
    println!("tasks that are composed: {}, that are not: {}", met[1], met[0]);
    tally.check(met.iter().all(|&met| met > 50), || "too few tasks".to_string());
}

/// The sheets of the tasks composed, where they are.
fn composed(tally: &mut Tally, rng: &mut Rng, given: &Tasks) -> bool {
    let Tasks { net, sheets } = given;
    let mut words: Vec<Vec<u32>> = sheets.iter().map(Sheet::words).collect();
    words.resize(4, Vec::new());
    let mut call = Call::new(Kind::Compose, &net_words(net), &words[0]);
    (call.number, call.others) = (sheets.len() as u32, words[1..].to_vec());
    let is = call.put();
    tally.check([0, 29, 30].contains(&is.reply[0]), || format!("right: {}", call.text()));
    if is.reply[0] != 0 {
        return false;
    }
    let checked = Call::new(Kind::SheetCheck, &call.net, call.result(&is)).put();
    let tasks = given.tasks();
    let waits = |task: &Task| (0..task.sheet.nodes()).filter(|&n| !task.is_busy(n)).count();
    let awaits: usize = tasks.iter().map(waits).product();
    let busy = |task: &Task| awaits / waits(task) * (task.sheet.nodes() - waits(task));
    let nodes = awaits + tasks.iter().map(busy).sum::<usize>();
    let should = [0, nodes as u64, awaits as u64];
    let numbers = [checked.reply[0], checked.reply[3], checked.reply[5]];
    tally.check(numbers == should, || format!("{numbers:?} {should:?}: {}", call.text()));
    let Ok(sheet) = Sheet::read(net, call.result(&is)) else {
        return false;
    };
    for _ in 0..10 {
        tally.check(either_order(rng, &sheet, &tasks), || format!("order: {}", call.text()));
    }
    true
}

/// From a state in which all wait two tasks are served, each by a list that its own sheet has; the
/// composed sheet allows both lists in either order, and they end at one node.
fn either_order(rng: &mut Rng, sheet: &Sheet, tasks: &[Task]) -> bool {
    let mut nodes = vec![0; tasks.len()];
    let mut state = Some(0);
    for _ in 0..rng.below(6) {
        let i = rng.below(tasks.len());
        let (list, end) = served(rng, &tasks[i], nodes[i]);
        nodes[i] = end;
        state = state.and_then(|state| followed(sheet, state, &list));
    }
    let i = rng.below(tasks.len());
    let j = (i + rng.below(tasks.len())) % tasks.len();
    let (first, _) = served(rng, &tasks[i], nodes[i]);
    let (second, _) = served(rng, &tasks[j], nodes[j]);
    let Some(state) = state else {
        return false;
    };
    // one task served twice need not end alike
    let one = followed(sheet, state, &[&first[..], &second].concat());
    let other = followed(sheet, state, &[&second[..], &first].concat());
    i == j || one.is_some() && one == other
}

/// A list by which a task gets from a waiting node to the next, and that node. Where chance leads
/// round and round, the way home is taken.
fn served(rng: &mut Rng, task: &Task, from: usize) -> (Vec<usize>, usize) {
    let (mut list, mut node) = (Vec::new(), from);
    loop {
        let offered = task.sheet.offered(node);
        let t = if list.len() < 50 { rng.pick(&offered) } else { homeward(task, node) };
        list.push(t);
        node = task.sheet.arcs[node][t].unwrap_or(0);
        if !task.is_busy(node) {
            return (list, node);
        }
    }
}

/// The first firing of a shortest way to a waiting node.
fn homeward(task: &Task, from: usize) -> usize {
    let mut far: Vec<Option<usize>> =
        (0..task.sheet.nodes()).map(|node| (!task.is_busy(node)).then_some(0)).collect();
    for round in 1..=task.sheet.nodes() {
        for (node, _, target) in task.sheet.all_arcs() {
            if far[node].is_none() && far[target] == Some(round - 1) {
                far[node] = Some(round);
            }
        }
    }
    let target = |t: &usize| far[task.sheet.arcs[from][*t].unwrap_or(from)];
    task.sheet.offered(from).into_iter().min_by_key(target).unwrap_or(0)
}

/// Where a list leads from a node.
fn followed(sheet: &Sheet, from: usize, list: &[usize]) -> Option<usize> {
    list.iter().try_fold(from, |node, &t| sheet.arcs[node][t])
}
