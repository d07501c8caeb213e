//! Sheets for composition, one for each source of a net: tasks with nothing in common, tasks that
//! share places without harm or to their harm, tasks that are too much together, and damage.

use super::rng::Rng;
use super::schedules::{self, fill_and_drain, net_words, ring, Schedule};
use super::{aimed, broken_clauses, damage};
use crate::model::{composed, Clash, Net, Sheet, Task, LINES, MAX_WEIGHT};

/// A net and, by rising source, a sheet for each of its sources, unless damaged since.
#[derive(Clone)]
pub struct Tasks {
    pub net: Net,
    pub sheets: Vec<Sheet>,
}

impl Tasks {
    /// The whole net with one of the sheets.
    fn one(&self, i: usize) -> Schedule {
        Schedule { net: self.net.clone(), sheet: self.sheets[i].clone() }
    }

    pub fn tasks(&self) -> Vec<Task> {
        let task = |(source, sheet): (usize, &Sheet)| Task { source, sheet: sheet.clone() };
        self.net.sources().into_iter().zip(&self.sheets).map(task).collect()
    }

    pub fn composed(&self) -> Result<Sheet, Clash> {
        composed(&self.net, &self.tasks())
    }

    /// Whether each sheet is right by itself.
    fn are_right(&self) -> bool {
        let right = |task: Task| {
            Sheet::read(&self.net, &task.sheet.words()).is_ok()
                && task.sheet.check_task(&self.net, Some(task.source)).is_ok()
        };
        self.net.sources().len() == self.sheets.len() && self.tasks().into_iter().all(right)
    }

    /// A change, undone where it spoils a sheet.
    fn changed(&mut self, change: impl FnOnce(&mut Tasks)) {
        let mut other = self.clone();
        change(&mut other);
        if other.net.places() <= LINES && other.are_right() {
            *self = other;
        }
    }
}

// ---- Tasks with nothing in common ----

/// A schedule of one source and of so many nodes at the most.
fn part(rng: &mut Rng, most: usize) -> Schedule {
    loop {
        let made = match rng.below(8) {
            0..=1 => fill_and_drain(rng.between(1, (most / 2).clamp(1, 64))),
            2 => used_once(),
            3 => schedules::explored(rng),
            4 => two_ways(rng, most.min(8)),
            _ => any_ring(rng, most),
        };
        if made.sheet.nodes() <= most && made.net.sources().len() == 1 {
            return made;
        }
    }
}

fn any_ring(rng: &mut Rng, most: usize) -> Schedule {
    let nodes = if rng.chance(40) { most } else { rng.between(1, most) };
    ring_of(rng, nodes)
}

/// A ring with one source, of which some nodes wait or all.
fn ring_of(rng: &mut Rng, nodes: usize) -> Schedule {
    let percent = rng.pick(&[30, 70, 100]);
    let waits: Vec<bool> = (0..nodes).map(|node| node == 0 || rng.chance(percent)).collect();
    ring(&waits, 1)
}

/// A ring whose busy nodes offer two transitions, of which the second leads anywhere.
fn two_ways(rng: &mut Rng, most: usize) -> Schedule {
    let nodes = rng.between(1, most);
    let waits: Vec<bool> = (0..nodes).map(|node| node == 0 || rng.chance(40)).collect();
    let Schedule { mut net, mut sheet } = ring(&waits, 2);
    net.taken.remove(1);
    net.put.remove(1);
    for row in &mut sheet.arcs {
        row.remove(1);
        row[2] = row[2].map(|_| rng.below(nodes));
    }
    Schedule { net, sheet }
}

/// The flag F is taken the first time, never to be put back, and Q tells of it.
fn used_once() -> Schedule {
    let bag = |places: &str| -> Vec<u64> {
        "AFQ".chars().map(|place| places.contains(place) as u64).collect()
    };
    let net = Net {
        taken: ["", "AF", "A"].map(bag).to_vec(),
        put: ["A", "Q", ""].map(bag).to_vec(),
        start: bag("F"),
        capacity: vec![None; 3],
    };
    let row = |t: usize, target: usize| (0..3).map(|u| (u == t).then_some(target)).collect();
    let arcs = vec![row(0, 1), row(1, 2), row(0, 3), row(2, 2)];
    let counts = ["F", "AF", "Q", "AQ"].map(bag).to_vec();
    Schedule { net, sheet: Sheet { arcs, counts } }
}

/// The parts in one net, none of which knows of another.
pub fn side_by_side(parts: &[Schedule]) -> Tasks {
    let start: Vec<u64> = parts.iter().flat_map(|part| part.net.start.clone()).collect();
    let transitions = parts.iter().map(|part| part.net.transitions()).sum();
    let (mut taken, mut put, mut sheets) = (Vec::new(), Vec::new(), Vec::new());
    let mut before = 0;
    for part in parts {
        let among = |row: &Vec<u64>, around: &[u64]| -> Vec<u64> {
            [&around[..before], row, &around[before + row.len()..]].concat()
        };
        let nothing = vec![0; start.len()];
        let first = taken.len();
        let wider = |row: &Vec<Option<usize>>| -> Vec<Option<usize>> {
            let mut wide = vec![None; transitions];
            wide[first..first + row.len()].copy_from_slice(row);
            wide
        };
        sheets.push(Sheet {
            arcs: part.sheet.arcs.iter().map(wider).collect(),
            counts: part.sheet.counts.iter().map(|row| among(row, &start)).collect(),
        });
        taken.extend(part.net.taken.iter().map(|row| among(row, &nothing)));
        put.extend(part.net.put.iter().map(|row| among(row, &nothing)));
        before += part.net.places();
    }
    let capacity = parts.iter().flat_map(|part| part.net.capacity.clone()).collect();
    Tasks { net: Net { taken, put, start, capacity }, sheets }
}

/// So many parts that fit into one net, with node counts whose product is 128 at the most.
fn parts(rng: &mut Rng, number: usize) -> Vec<Schedule> {
    loop {
        let mut room = 128;
        let mut parts = Vec::new();
        for left in (0..number).rev() {
            let even = (room as f64).powf(1.0 / (left as f64 + 1.0)) as usize;
            let most = rng.pick(&[1, 2, 3, even, even, even + 2]).clamp(1, room);
            parts.push(part(rng, most));
            room /= parts[parts.len() - 1].sheet.nodes();
            room = room.max(1);
        }
        let places: usize = parts.iter().map(|part| part.net.places()).sum();
        let transitions: usize = parts.iter().map(|part| part.net.transitions()).sum();
        if places < LINES && transitions <= LINES {
            return parts;
        }
    }
}

/// Rings with so many nodes each.
fn rings(rng: &mut Rng, sizes: &[usize]) -> Tasks {
    let parts: Vec<Schedule> = sizes.iter().map(|&nodes| ring_of(rng, nodes)).collect();
    side_by_side(&parts)
}

/// Node counts whose product is 128, 129 or more.
const SIZES: [&[usize]; 20] = [
    &[128],
    &[64, 2],
    &[8, 16],
    &[1, 128],
    &[128, 1, 1],
    &[4, 4, 8],
    &[32, 2, 2],
    &[2, 4, 4, 4],
    &[1, 2, 64, 1],
    &[3, 43],
    &[43, 3],
    &[1, 43, 3],
    &[3, 1, 1, 43],
    &[43, 1, 3],
    &[1, 3, 1, 43],
    &[2, 65],
    &[12, 11],
    &[128, 2],
    &[6, 6, 4],
    &[128, 128, 128, 128],
];

/// Waiting nodes alone, and so many places that are never empty that the composed sheet has 4,096
/// entries, or 128 more.
fn full(rng: &mut Rng) -> Tasks {
    let sizes = rng.pick(&[&[8, 16][..], &[64, 2], &[4, 4, 8], &[2, 4, 4, 4]]);
    let parts: Vec<Schedule> = sizes.iter().map(|&nodes| ring(&vec![true; nodes], 1)).collect();
    let mut tasks = side_by_side(&parts);
    let places = LINES - sizes.len() + rng.below(2);
    while tasks.net.places() < places {
        add_place(&mut tasks, 1);
    }
    tasks
}

/// A place that nothing draws on or fills.
fn add_place(tasks: &mut Tasks, tokens: u64) {
    let Net { taken, put, start, capacity } = &mut tasks.net;
    taken.iter_mut().chain(put).for_each(|row| row.push(0));
    start.push(tokens);
    capacity.push(None);
    tasks.sheets.iter_mut().flat_map(|sheet| &mut sheet.counts).for_each(|row| row.push(tokens));
}

// ---- Tasks that share places ----

/// Several parts and a place that some of them share: either each fills and drains it as it does a
/// place of its own, or they borrow from it. What of it is enough for one of them may be too little
/// or too much for all.
fn shared(rng: &mut Rng) -> Tasks {
    let number = rng.between(2, 4);
    let parts = match rng.below(10) {
        0..=2 => vec![used_once(); number.min(3)],
        3..=5 => (0..number.min(3)).map(|_| fill_and_drain(rng.between(1, 2))).collect(),
        _ => parts(rng, number),
    };
    let mut tasks = side_by_side(&parts);
    if rng.chance(80) {
        let columns: Vec<usize> = parts.iter().map(|part| rng.below(part.net.places())).collect();
        let sum: u64 = parts.iter().zip(&columns).map(|(part, &p)| part.net.start[p]).sum();
        let starts = parts.iter().zip(&columns).map(|(part, &p)| part.net.start[p]);
        let start = if rng.chance(40) { sum } else { starts.max().unwrap_or(0) };
        tasks.changed(|tasks| mirror(tasks, &parts, &columns, start));
    } else {
        let tokens = rng.between(1, 2) as u64;
        tasks.changed(|tasks| borrow(rng, tasks, tokens));
    }
    match rng.below(6) {
        0..=1 => crowd(rng, &mut tasks, true),
        2 => crowd(rng, &mut tasks, false),
        3..=4 => lift(rng, &mut tasks),
        _ => {}
    }
    tasks
}

/// A place that each part fills and drains as it does the one named.
fn mirror(tasks: &mut Tasks, parts: &[Schedule], columns: &[usize], start: u64) {
    add_place(tasks, 0);
    let place = tasks.net.places() - 1;
    tasks.net.start[place] = start;
    let (mut before, mut first) = (0, 0);
    for (i, (part, &column)) in parts.iter().zip(columns).enumerate() {
        for t in first..first + part.net.transitions() {
            tasks.net.taken[t][place] = tasks.net.taken[t][before + column];
            tasks.net.put[t][place] = tasks.net.put[t][before + column];
        }
        for (row, own) in tasks.sheets[i].counts.iter_mut().zip(&part.sheet.counts) {
            row[place] = own[column] + start - part.net.start[column];
        }
        before += part.net.places();
        first += part.net.transitions();
    }
}

/// A place from which transitions of all tasks take tokens that they put back at once.
fn borrow(rng: &mut Rng, tasks: &mut Tasks, tokens: u64) {
    add_place(tasks, tokens);
    let place = tasks.net.places() - 1;
    for t in 0..tasks.net.transitions() {
        if !tasks.net.is_source(t) && rng.chance(60) {
            let weight = 1 + rng.next() % tokens;
            tasks.net.taken[t][place] = weight;
            tasks.net.put[t][place] = weight;
        }
    }
}

/// A capacity that each task keeps by itself, and that all together fill, or do not keep.
fn crowd(rng: &mut Rng, tasks: &mut Tasks, too_low: bool) {
    let Ok(sheet) = tasks.composed() else {
        return;
    };
    let all = Schedule { net: tasks.net.clone(), sheet };
    let alone = |p: usize| (0..tasks.sheets.len()).map(|i| tasks.one(i).needed(p)).max();
    let needed = |p: usize| (alone(p).unwrap_or(0).max(1), all.needed(p));
    let tight = |&p: &usize| needed(p).0 < needed(p).1 && needed(p).1 <= MAX_WEIGHT;
    let places: Vec<usize> = (0..tasks.net.places()).filter(tight).collect();
    if let Some(p) = rng.pick_any(&places) {
        let (alone, all) = needed(p);
        let low = rng.pick(&[alone, all - 1]);
        tasks.net.capacity[p] = Some(if too_low { low } else { all });
    }
}

/// A place that starts with so much that what the tasks add to it together reaches the limit, or
/// passes it by one.
fn lift(rng: &mut Rng, tasks: &mut Tasks) {
    let Ok(all) = tasks.composed() else {
        return;
    };
    let greatest = |sheet: &Sheet, p: usize| sheet.counts.iter().map(|row| row[p]).max();
    let alone = |p: usize| tasks.sheets.iter().map(|sheet| greatest(sheet, p)).max().flatten();
    let shared = |&p: &usize| alone(p) < greatest(&all, p);
    let places: Vec<usize> = (0..tasks.net.places()).filter(shared).collect();
    if let Some(p) = rng.pick_any(&places) {
        let most = greatest(&all, p).unwrap_or(0);
        let more = MAX_WEIGHT - most + rng.pick(&[0, 1, 1]);
        tasks.changed(|tasks| {
            tasks.net.capacity[p] = None;
            tasks.net.start[p] += more;
            let rows = tasks.sheets.iter_mut().flat_map(|sheet| &mut sheet.counts);
            rows.for_each(|row| row[p] += more);
        });
    }
}

// ---- Tasks found by chance ----

/// A net found by chance, and for each of its sources a sheet that a scheduler found by chance, which
/// knows of no other source.
fn explored(rng: &mut Rng) -> Tasks {
    loop {
        let net = schedules::chance_net(rng);
        let sheets: Option<Vec<Sheet>> =
            net.sources().into_iter().map(|source| explored_task(rng, &net, source)).collect();
        let fits = |sheets: &Vec<Sheet>| {
            let most = if rng.chance(80) { 128 } else { 200 };
            sheets.iter().map(Sheet::nodes).product::<usize>() <= most
        };
        if let Some(sheets) = sheets.filter(fits) {
            return Tasks { net, sheets };
        }
    }
}

fn explored_task(rng: &mut Rng, net: &Net, source: usize) -> Option<Sheet> {
    let kept: Vec<usize> =
        (0..net.transitions()).filter(|&t| t == source || !net.is_source(t)).collect();
    let rows = |rows: &[Vec<u64>]| kept.iter().map(|&t| rows[t].clone()).collect();
    let fewer = Net { taken: rows(&net.taken), put: rows(&net.put), ..net.clone() };
    let mut sheet = (0..3).find_map(|_| schedules::scheduled(rng, &fewer))?;
    for row in &mut sheet.arcs {
        let mut wide = vec![None; net.transitions()];
        kept.iter().zip(&*row).for_each(|(&t, &target)| wide[t] = target);
        *row = wide;
    }
    Some(sheet)
}

// ---- Of any kind ----

/// Tasks of any family, their lines and nodes in any order.
pub fn any(rng: &mut Rng) -> Tasks {
    let number = rng.between(1, 4);
    let made = match rng.below(20) {
        0..=3 => side_by_side(&parts(rng, number)),
        4..=6 => explored(rng),
        7..=14 => shared(rng),
        15..=17 => {
            let sizes = rng.pick(&SIZES);
            rings(rng, sizes)
        }
        _ => full(rng),
    };
    varied(rng, made)
}

/// More places, and places, transitions and nodes in another order.
fn varied(rng: &mut Rng, mut tasks: Tasks) -> Tasks {
    if rng.chance(15) {
        let tokens = rng.pick(&[0, 1, MAX_WEIGHT]);
        tasks.changed(|tasks| add_place(tasks, tokens));
    }
    if rng.chance(60) {
        let (places, transitions) =
            (rng.order(tasks.net.places()), rng.order(tasks.net.transitions()));
        let mut moved: Vec<(usize, Schedule)> = Vec::new();
        for (i, source) in tasks.net.sources().into_iter().enumerate() {
            let number = transitions.iter().position(|&t| t == source).unwrap_or(0);
            moved.push((number, tasks.one(i).relined(&places, &transitions)));
        }
        moved.sort_by_key(|(number, _)| *number);
        tasks.net = moved[0].1.net.clone();
        tasks.sheets = moved.into_iter().map(|(_, schedule)| schedule.sheet).collect();
    }
    for i in 0..tasks.sheets.len() {
        if rng.chance(50) {
            tasks.sheets[i] = tasks.one(i).renumbered(rng).sheet;
        }
    }
    tasks
}

/// What a composition is handed: the net, the number and the four slices.
pub struct Handed {
    pub net: Vec<u32>,
    pub number: u32,
    pub sheets: Vec<Vec<u32>>,
}

/// The words of tasks, of which some are damaged, with anything past their number.
pub fn handed(rng: &mut Rng) -> Handed {
    let mut tasks = any(rng);
    if rng.chance(4) {
        let five: Vec<Schedule> = (0..5).map(|_| part(rng, 2)).collect();
        tasks = side_by_side(&five);
    }
    let mut net = net_words(&tasks.net);
    let mut number = tasks.sheets.len() as u32;
    let mut sheets: Vec<Vec<u32>> = tasks.sheets.iter().map(Sheet::words).collect();
    match rng.below(20) {
        0..=8 => {}
        9 => number = rng.pick(&[0, number + 1, number.wrapping_sub(1), 4, 5, u32::MAX]),
        10..=11 => {
            let i = rng.below(sheets.len());
            sheets[i] = with_removed(rng, &tasks, i);
        }
        12..=13 => {
            for _ in 0..rng.between(1, 2) {
                damage_one(rng, &tasks, &mut sheets);
            }
        }
        14..=17 => {
            // the other sheets stay those of the net as it was
            let i = rng.below(sheets.len());
            (net, sheets[i]) = aimed::any(rng, &tasks.one(i));
        }
        18 => sheets.reverse(),
        _ => sheets[rng.below(number as usize)] = Vec::new(),
    }
    let length = |sheets: &[Vec<u32>]| sheets.iter().map(Vec::len).sum::<usize>();
    while sheets.len() < 4 {
        let past = match rng.below(4) {
            0 => Vec::new(),
            1 => rng.pick(&sheets),
            2 => damage::sheet_at_limits(rng),
            _ => damage::garbage(rng),
        };
        // all that a case has is read into one list, which has an end
        sheets.push(if length(&sheets) + past.len() > 17_000 { vec![0] } else { past });
    }
    sheets.truncate(4);
    Handed { net, number, sheets }
}

/// Breaks a clause or the words of one of the sheets; of a broken clause the net stays as it was.
fn damage_one(rng: &mut Rng, tasks: &Tasks, sheets: &mut [Vec<u32>]) {
    let i = rng.below(sheets.len());
    if rng.chance(75) {
        sheets[i] = broken_clauses(rng, &tasks.one(i)).1;
    } else {
        damage::break_words(rng, &mut sheets[i], 2);
    }
}

/// A sheet with an arc of a source that is removed from its net: beside others or alone, at one node
/// or wherever the task waits.
fn with_removed(rng: &mut Rng, tasks: &Tasks, i: usize) -> Vec<u32> {
    let mut sheet = tasks.sheets[i].clone();
    let (own, nodes) = (tasks.net.sources()[i], sheet.nodes());
    let others: Vec<usize> = tasks.net.sources().into_iter().filter(|&t| t != own).collect();
    let Some(other) = rng.pick_any(&others) else {
        return sheet.words();
    };
    let node = rng.below(nodes);
    match rng.below(4) {
        0 => sheet.arcs[node].fill(None),
        1 => {
            for row in sheet.arcs.iter_mut().filter(|row| row[own].is_some()) {
                row[other] = row[own];
            }
        }
        2 => sheet.arcs[0][other] = sheet.arcs[0][own].take(),
        _ => {}
    }
    sheet.arcs[node][other] = Some(rng.below(nodes));
    sheet.words()
}
