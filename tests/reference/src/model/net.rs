//! The net's words (§2.1), and what a net alone decides: firing, sources and choice sets.

use super::{
    refuse,
    Position::{Entry, Nothing, Place},
    Refusal, LINES, MAX_WEIGHT,
};

/// A net, spread out.
#[derive(Clone)]
pub struct Net {
    /// `taken[t][p]`: what transition t takes from place p.
    pub taken: Vec<Vec<u64>>,
    /// `put[t][p]`: what transition t puts into place p.
    pub put: Vec<Vec<u64>>,
    /// `start[p]`: what place p starts with.
    pub start: Vec<u64>,
    /// `capacity[p]`: what place p can hold, nothing where that is any number.
    pub capacity: Vec<Option<u64>>,
}

/// Whether keys rise and stay below an end: §2.3, §3.4.
pub(super) fn key_fits(keys: &[u32], i: usize, end: u64) -> bool {
    (i == 0 || keys[i] > keys[i - 1]) && u64::from(keys[i]) < end
}

/// For every key below the end its value, nothing where the key is absent.
pub(super) fn spread(keys: &[u32], values: &[u32], end: u64) -> Vec<Option<u64>> {
    let mut table = vec![None; end as usize];
    for (&key, &value) in keys.iter().zip(values) {
        table[key as usize] = Some(u64::from(value));
    }
    table
}

/// The sizes and entries of words that pass 1 and 2.
pub struct Shape<'a> {
    places: u64,
    transitions: u64,
    keys: &'a [u32],
    weights: &'a [u32],
}

impl Shape<'_> {
    /// The checks before the entries: §7.1, §7.2.
    pub fn read(words: &[u32]) -> Result<Shape<'_>, Refusal> {
        if words.len() < 3 {
            return refuse(1, Nothing);
        }
        let [places, transitions, k] = [words[0], words[1], words[2]].map(u64::from);
        let fits = |lines: u64| (1..=LINES as u64).contains(&lines);
        if !fits(places) || !fits(transitions) || k > (2 * transitions + 2) * places {
            return refuse(2, Nothing);
        }
        if words.len() as u64 != 3 + 2 * k {
            return refuse(1, Nothing);
        }
        let (keys, weights) = words[3..].split_at(k as usize);
        Ok(Shape { places, transitions, keys, weights })
    }

    /// The keys lie below this.
    fn end(&self) -> u64 {
        (2 * self.transitions + 2) * self.places
    }

    /// What a transition takes and puts at a place, what the place starts with and its capacity,
    /// each found by halving, whether the keys rise or not.
    pub fn halved(&self, transition: u64, place: u64) -> [u64; 4] {
        let (t, end) = (transition, self.transitions);
        let at = |there_is: bool, row: u64| match there_is && place < self.places {
            true => self.halved_at(row * self.places + place),
            false => 0,
        };
        [at(t < end, t), at(t < end, end + t), at(true, 2 * end), at(true, 2 * end + 1)]
    }

    /// Halves the entries, with the middle rounded down and upwards past a key below the one asked
    /// for; 0 where the entry that is left does not have the key.
    fn halved_at(&self, key: u64) -> u64 {
        let (mut low, mut high) = (0, self.keys.len());
        while low < high {
            let middle = (low + high) / 2;
            if u64::from(self.keys[middle]) < key {
                low = middle + 1;
            } else {
                high = middle;
            }
        }
        match self.keys.get(low) {
            Some(&found) if u64::from(found) == key => u64::from(self.weights[low]),
            _ => 0,
        }
    }
}

impl Net {
    /// The net's checks in their order: §7.55.
    pub fn read(words: &[u32]) -> Result<Net, Refusal> {
        let net = Net::entries(words)?;
        if let Some(p) = (0..net.places()).find(|&p| !net.holds_at_most(p, net.start[p])) {
            return refuse(26, Place(p));
        }
        if net.sources().is_empty() {
            return refuse(5, Nothing);
        }
        Ok(net)
    }

    /// A net's weights, with a source or without, and whatever the places start with.
    pub fn spread_out(words: &[u32]) -> Option<Net> {
        Net::entries(words).ok()
    }

    /// The checks up to the entries.
    fn entries(words: &[u32]) -> Result<Net, Refusal> {
        let shape = Shape::read(words)?;
        let end = shape.end();
        for (i, &weight) in shape.weights.iter().enumerate() {
            if !key_fits(shape.keys, i, end) {
                return refuse(3, Entry(i));
            }
            if !(1..=MAX_WEIGHT).contains(&u64::from(weight)) {
                return refuse(4, Entry(i));
            }
        }
        let table = spread(shape.keys, shape.weights, end);
        Ok(Net::from_table(&table, shape.places as usize, shape.transitions as usize))
    }

    /// The keys are rows of P places: what each transition takes, what each puts, the start, the
    /// capacities; a weight without a key is 0 (§2.8), a place without one has no capacity (§2.10).
    fn from_table(table: &[Option<u64>], p: usize, t: usize) -> Net {
        let row = |r: usize| -> Vec<u64> {
            table[r * p..(r + 1) * p].iter().map(|weight| weight.unwrap_or(0)).collect()
        };
        Net {
            taken: (0..t).map(row).collect(),
            put: (t..2 * t).map(row).collect(),
            start: row(2 * t),
            capacity: table[(2 * t + 1) * p..].to_vec(),
        }
    }

    pub fn places(&self) -> usize {
        self.start.len()
    }

    pub fn transitions(&self) -> usize {
        self.taken.len()
    }

    /// Whether a count is within the capacity of a place: §2.10.
    pub fn holds_at_most(&self, p: usize, count: u64) -> bool {
        self.capacity[p].map_or(true, |most| count <= most)
    }

    /// Every place holds what t takes: §4.2.
    pub fn has_taken(&self, marking: &[u64], t: usize) -> bool {
        (0..self.places()).all(|p| marking[p] >= self.taken[t][p])
    }

    /// Every place into which t puts has room for it, before anything is taken: §4.5.
    pub fn has_room(&self, marking: &[u64], t: usize) -> bool {
        let fits = |p: usize, put: u64| put == 0 || self.holds_at_most(p, marking[p] + put);
        (0..self.places()).all(|p| fits(p, self.put[t][p]))
    }

    pub fn enabled(&self, marking: &[u64], t: usize) -> bool {
        self.has_taken(marking, t) && self.has_room(marking, t)
    }

    /// §4.3, where what t takes is there.
    pub fn fire(&self, marking: &[u64], t: usize) -> Vec<u64> {
        (0..self.places()).map(|p| marking[p] - self.taken[t][p] + self.put[t][p]).collect()
    }

    /// §2.9
    pub fn is_source(&self, t: usize) -> bool {
        self.taken[t].iter().all(|&weight| weight == 0)
    }

    pub fn sources(&self) -> Vec<usize> {
        (0..self.transitions()).filter(|&t| self.is_source(t)).collect()
    }

    /// The sources of the net in which only one of them is kept, if one is named: request #108.
    pub fn sources_of(&self, kept: Option<usize>) -> Vec<usize> {
        kept.map_or(self.sources(), |kept| vec![kept])
    }

    /// The choice set of t in that net, which a removed source is not in.
    pub fn set_of(&self, kept: Option<usize>, t: usize) -> Vec<usize> {
        match kept {
            Some(kept) if self.is_source(t) => {
                [kept].into_iter().filter(|&kept| kept == t).collect()
            }
            _ => self.choice_set(t),
        }
    }

    /// The transitions that take the same as t from every place.
    pub fn all_alike(&self, t: usize) -> Vec<usize> {
        (0..self.transitions()).filter(|&u| self.taken[u] == self.taken[t]).collect()
    }

    /// Whether some that take the same are no choice set.
    pub fn is_arbitrated(&self) -> bool {
        (0..self.transitions()).any(|t| self.choice_set(t) != self.all_alike(t))
    }

    /// The choice set of t, §5.1: all that take the same as t, if every transition that draws on a
    /// place which they draw on is one of them; if not, t alone.
    pub fn choice_set(&self, t: usize) -> Vec<usize> {
        let alike = self.all_alike(t);
        let places: Vec<usize> = (0..self.places()).filter(|&p| self.taken[t][p] > 0).collect();
        let draws = |u: &usize| places.iter().any(|&p| self.taken[*u][p] > 0);
        if (0..self.transitions()).filter(draws).all(|u| alike.contains(&u)) {
            alike
        } else {
            vec![t]
        }
    }
}
