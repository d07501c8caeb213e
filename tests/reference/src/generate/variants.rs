//! Accepted pairs made from accepted ones: other numbers of the same nodes, more nodes, places and
//! transitions, larger weights.

use super::rng::Rng;
use super::schedules::Schedule;
use crate::model::{Net, Sheet, LINES, MAX_ENTRIES, MAX_NODES, MAX_WEIGHT};

/// Up to four of the changes below, in any order.
pub fn varied(rng: &mut Rng, mut schedule: Schedule) -> Schedule {
    for _ in 0..rng.below(5) {
        schedule = match rng.below(10) {
            0 => schedule.unrolled(rng),
            1 => schedule.renumbered(rng),
            2 => schedule.scaled(rng),
            3 => schedule.lifted(rng),
            4 => schedule.padded(rng),
            5 => schedule.shuffled(rng),
            6..=7 => schedule.capped(rng),
            8 => schedule.unrolled(rng).renumbered(rng),
            _ => schedule.padded(rng).scaled(rng).shuffled(rng),
        };
    }
    schedule
}

impl Schedule {
    /// How many nodes a sheet may have whose nodes have as many entries as the fullest of this one.
    fn room(&self) -> usize {
        let row = |node: usize| {
            let counts = self.sheet.counts[node].iter().filter(|&&count| count > 0).count();
            self.sheet.offered(node).len() + counts
        };
        let fullest = (0..self.sheet.nodes()).map(row).max().unwrap_or(1).max(1);
        (MAX_NODES as usize).min(MAX_ENTRIES as usize / fullest)
    }

    /// Gives nodes several copies; an arc leads to a new copy of its target while there is room, or
    /// to one there already. The root allows what it did.
    pub fn unrolled(&self, rng: &mut Rng) -> Schedule {
        let nodes = self.sheet.nodes();
        let room = rng.between(nodes, self.room().max(nodes));
        let eagerness = rng.between(30, 100);
        let mut copies: Vec<Vec<usize>> = vec![Vec::new(); nodes];
        copies[0].push(0);
        let mut original = vec![0];
        let mut arcs = Vec::new();
        while arcs.len() < original.len() {
            let mut row = self.sheet.arcs[original[arcs.len()]].clone();
            for target in row.iter_mut().flatten() {
                let without = copies.iter().filter(|copies| copies.is_empty()).count();
                let spare = original.len() + without < room;
                if copies[*target].is_empty() || (spare && rng.chance(eagerness)) {
                    copies[*target].push(original.len());
                    original.push(*target);
                    *target = original.len() - 1;
                } else {
                    *target = rng.pick(&copies[*target]);
                }
            }
            arcs.push(row);
        }
        let counts = original.iter().map(|&node| self.sheet.counts[node].clone()).collect();
        Schedule { net: self.net.clone(), sheet: Sheet { arcs, counts } }
    }

    /// Other numbers for all nodes but the root: any, or falling.
    pub fn renumbered(&self, rng: &mut Rng) -> Schedule {
        let nodes = self.sheet.nodes();
        let mut order = if rng.chance(30) { (0..nodes).rev().collect() } else { rng.order(nodes) };
        order.retain(|&node| node != 0);
        order.insert(0, 0);
        Schedule { net: self.net.clone(), sheet: reordered(&self.sheet, &order) }
    }

    /// Multiplies the weights and counts of each place, as far as the limit in some.
    pub fn scaled(&self, rng: &mut Rng) -> Schedule {
        let mut scaled = self.clone();
        for p in 0..self.net.places() {
            let greatest = scaled.column(p).map(|weight| *weight).max().unwrap_or(0).max(1);
            let most = MAX_WEIGHT / greatest;
            let factor = match rng.below(3) {
                0 => 1,
                1 => most,
                _ => 1 + rng.next() % most,
            };
            scaled.column(p).for_each(|weight| *weight *= factor);
        }
        scaled
    }

    /// Everything that belongs to a place: weights, start, capacity and counts.
    fn column(&mut self, p: usize) -> impl Iterator<Item = &mut u64> {
        let Net { taken, put, start, capacity } = &mut self.net;
        let rows = taken.iter_mut().chain(put).chain([start]).chain(&mut self.sheet.counts);
        rows.map(move |row| &mut row[p]).chain(capacity[p].as_mut())
    }

    /// The most that a place has to have room for: where it starts, and before each firing of an
    /// arc that puts something there, with what is put.
    pub fn needed(&self, p: usize) -> u64 {
        let Schedule { net, sheet } = self;
        let put = |(node, t, _): (usize, usize, usize)| match net.put[t][p] {
            0 => 0,
            put => sheet.counts[node][p] + put,
        };
        sheet.all_arcs().into_iter().map(put).chain([net.start[p]]).max().unwrap_or(0)
    }

    /// Other capacities: none, just enough, more than enough, or the limit.
    pub fn capped(&self, rng: &mut Rng) -> Schedule {
        let mut capped = self.clone();
        let percent = rng.pick(&[0, 30, 70, 100]);
        for p in 0..self.net.places() {
            let needed = self.needed(p).max(1);
            let most = match rng.below(4) {
                0..=1 => needed,
                2 => needed + rng.next() % 3,
                _ => MAX_WEIGHT,
            };
            let fits = needed <= most && most <= MAX_WEIGHT && rng.chance(percent);
            capped.net.capacity[p] = fits.then_some(most);
        }
        capped
    }

    /// The number of entries of the sheet's words.
    fn entries(&self) -> usize {
        let counts = self.sheet.counts.iter().flatten().filter(|&&count| count > 0).count();
        self.sheet.arcs.iter().flatten().flatten().count() + counts
    }

    /// Adds tokens to a place that nothing will ever take, as many as the limit allows or fewer.
    pub fn lifted(&self, rng: &mut Rng) -> Schedule {
        let p = rng.below(self.net.places());
        let greatest = self.sheet.counts.iter().map(|counts| counts[p]).max().unwrap_or(0);
        let most = MAX_WEIGHT - greatest;
        let more = if rng.chance(50) { most } else { rng.next() % (most + 1) };
        let mut lifted = self.clone();
        lifted.net.start[p] += more;
        let raised = lifted.net.capacity[p].map(|most| most + more);
        lifted.net.capacity[p] = raised.filter(|&most| most <= MAX_WEIGHT);
        lifted.sheet.counts.iter_mut().for_each(|counts| counts[p] += more);
        if lifted.entries() > MAX_ENTRIES as usize {
            return self.clone();
        }
        lifted
    }

    /// A further place that always holds `tokens`; some choice sets take some and put them back.
    pub fn add_place(&mut self, rng: &mut Rng, tokens: u64) {
        let Net { taken, put, start, capacity } = &mut self.net;
        let before = taken.clone();
        for t in 0..before.len() {
            let is_source = before[t].iter().all(|&weight| weight == 0);
            let weight = match before[..t].iter().position(|row| *row == before[t]) {
                Some(first) => taken[first][start.len()],
                None if !is_source && rng.chance(30) => rng.next() % (tokens + 1),
                None => 0,
            };
            taken[t].push(weight);
            put[t].push(weight);
        }
        let most = tokens + taken.iter().map(|row| row[start.len()]).max().unwrap_or(0);
        let fits = (1..=MAX_WEIGHT).contains(&most) && rng.chance(30);
        capacity.push(fits.then_some(most));
        start.push(tokens);
        self.sheet.counts.iter_mut().for_each(|counts| counts.push(tokens));
    }

    /// A further transition that no node offers and that takes otherwise than all others; some put
    /// back what they take.
    fn add_transition(&mut self, rng: &mut Rng) {
        let Net { taken, put, start, .. } = &mut self.net;
        let mut row = vec![0; start.len()];
        let most = if rng.chance(50) { 2 } else { MAX_WEIGHT };
        while taken.contains(&row) {
            row[rng.below(start.len())] += rng.next() % most + 1;
        }
        let given = (0..start.len()).map(|_| rng.next() % 3).collect();
        put.push(if rng.chance(30) { row.clone() } else { given });
        taken.push(row);
        self.sheet.arcs.iter_mut().for_each(|row| row.push(None));
    }

    /// Further places and transitions, up to 32 of each.
    pub fn padded(&self, rng: &mut Rng) -> Schedule {
        let mut padded = self.clone();
        let mut goal = |from: usize| {
            let most = rng.chance(40);
            if most {
                LINES
            } else {
                rng.between(from, LINES)
            }
        };
        let (places, transitions) = (goal(self.net.places()), goal(self.net.transitions()));
        for _ in padded.net.places()..places {
            let full = padded.entries() + padded.sheet.nodes() > MAX_ENTRIES as usize;
            let tokens = if full { 0 } else { rng.pick(&[0, 0, 1, 5, MAX_WEIGHT]) };
            padded.grow(|grown| grown.add_place(rng, tokens));
        }
        for _ in padded.net.transitions()..transitions {
            padded.grow(|grown| grown.add_transition(rng));
        }
        padded
    }

    /// A change that adds to the net, undone where the transitions that it had would be in other
    /// choice sets.
    fn grow(&mut self, change: impl FnOnce(&mut Schedule)) {
        let transitions = self.net.transitions();
        let sets = |net: &Net| -> Vec<Vec<usize>> {
            (0..transitions).map(|t| net.choice_set(t)).collect()
        };
        let mut grown = self.clone();
        change(&mut grown);
        if sets(&grown.net) == sets(&self.net) {
            *self = grown;
        }
    }

    /// Places and transitions in another order.
    pub fn shuffled(&self, rng: &mut Rng) -> Schedule {
        let places = rng.order(self.net.places());
        let transitions = rng.order(self.net.transitions());
        self.relined(&places, &transitions)
    }

    /// Places and transitions in the orders given.
    pub fn relined(&self, places: &[usize], transitions: &[usize]) -> Schedule {
        let by_place = |row: &Vec<u64>| -> Vec<u64> { places.iter().map(|&p| row[p]).collect() };
        let weights = |rows: &[Vec<u64>]| -> Vec<Vec<u64>> {
            transitions.iter().map(|&t| by_place(&rows[t])).collect()
        };
        let net = Net {
            taken: weights(&self.net.taken),
            put: weights(&self.net.put),
            start: by_place(&self.net.start),
            capacity: places.iter().map(|&p| self.net.capacity[p]).collect(),
        };
        let by_transition =
            |row: &Vec<Option<usize>>| transitions.iter().map(|&t| row[t]).collect();
        let sheet = Sheet {
            arcs: self.sheet.arcs.iter().map(by_transition).collect(),
            counts: self.sheet.counts.iter().map(by_place).collect(),
        };
        Schedule { net, sheet }
    }
}

/// The sheet with the node `order[i]` as its node i.
pub fn reordered(sheet: &Sheet, order: &[usize]) -> Sheet {
    let mut number = vec![0; order.len()];
    for (new, &old) in order.iter().enumerate() {
        number[old] = new;
    }
    let row = |&old: &usize| sheet.arcs[old].iter().map(|m| m.map(|m| number[m])).collect();
    Sheet {
        arcs: order.iter().map(row).collect(),
        counts: order.iter().map(|&old| sheet.counts[old].clone()).collect(),
    }
}
