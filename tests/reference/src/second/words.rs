//! A net or a sheet as its sizes and its values by key.

use std::collections::{BTreeMap, BTreeSet};

pub struct Words {
    sizes: Vec<u64>,
    values: BTreeMap<u64, u64>,
}

impl Words {
    pub fn new(sizes: &[u64], keys: &[u64], values: &[u64]) -> Words {
        let values = keys.iter().copied().zip(values.iter().copied());
        Words { sizes: sizes.to_vec(), values: values.collect() }
    }

    fn at(&self, key: u64) -> u64 {
        self.values.get(&key).copied().unwrap_or(0)
    }
}

/// Of a net.
impl Words {
    pub fn places(&self) -> u64 {
        self.sizes[0]
    }

    pub fn transitions(&self) -> u64 {
        self.sizes[1]
    }

    pub fn taken(&self, t: u64, p: u64) -> u64 {
        self.at(t * self.places() + p)
    }

    pub fn put(&self, t: u64, p: u64) -> u64 {
        self.at((self.transitions() + t) * self.places() + p)
    }

    pub fn start(&self, p: u64) -> u64 {
        self.at(2 * self.transitions() * self.places() + p)
    }

    /// The capacity of place p, nothing where the key is absent.
    pub fn capacity(&self, p: u64) -> Option<u64> {
        self.values.get(&((2 * self.transitions() + 1) * self.places() + p)).copied()
    }

    pub fn all_taken(&self, t: u64) -> Vec<u64> {
        (0..self.places()).map(|p| self.taken(t, p)).collect()
    }

    pub fn is_source(&self, t: u64) -> bool {
        self.all_taken(t).iter().sum::<u64>() == 0
    }
}

/// Of a sheet of a net.
impl Words {
    pub fn nodes(&self) -> u64 {
        self.sizes[0]
    }

    pub fn arc(&self, net: &Words, n: u64, t: u64) -> Option<u64> {
        let key = n * net.transitions() + t;
        self.values.get(&key).copied().filter(|_| t < net.transitions())
    }

    /// 1 more than the entry of an arc, which is how many keys lie up to its own; 0 where there is none.
    pub fn told_entry(&self, net: &Words, n: u64, t: u64) -> u64 {
        let key = n * net.transitions() + t;
        self.arc(net, n, t).map_or(0, |_| self.values.range(..=key).count() as u64)
    }

    /// The arcs in entry order, as node, transition and target.
    pub fn arcs(&self, net: &Words) -> Vec<(u64, u64, u64)> {
        let end = self.nodes() * net.transitions();
        let arc = |(&key, &target)| (key / net.transitions(), key % net.transitions(), target);
        self.values.range(..end).map(arc).collect()
    }

    pub fn offered(&self, net: &Words, n: u64) -> BTreeSet<u64> {
        (0..net.transitions()).filter(|&t| self.arc(net, n, t).is_some()).collect()
    }

    pub fn awaits(&self, net: &Words) -> Vec<u64> {
        let sources = (0..net.transitions()).filter(|&t| net.is_source(t)).collect();
        (0..self.nodes()).filter(|&n| self.offered(net, n) == sources).collect()
    }

    pub fn count(&self, net: &Words, n: u64, p: u64) -> u64 {
        self.at(self.nodes() * net.transitions() + n * net.places() + p)
    }

    pub fn counts(&self, net: &Words, n: u64) -> Vec<u64> {
        (0..net.places()).map(|p| self.count(net, n, p)).collect()
    }
}

/// Of a net without some of its transitions; those behind them move up.
impl Words {
    /// The number that a transition has when some are gone, nothing where it is one of these.
    fn moved(t: u64, dropped: &BTreeSet<u64>) -> Option<u64> {
        (!dropped.contains(&t)).then(|| t - dropped.range(..t).count() as u64)
    }

    pub fn without(&self, dropped: &BTreeSet<u64>) -> Words {
        let (p, t) = (self.places(), self.transitions());
        let left = t - dropped.len() as u64;
        // rows: what is taken, what is put, then start and capacities
        let row = |row: u64| match row / t {
            0 => Words::moved(row, dropped),
            1 => Words::moved(row - t, dropped).map(|row| left + row),
            _ => Some(row - 2 * t + 2 * left),
        };
        let entry = |(&key, &value): (&u64, &u64)| Some((row(key / p)? * p + key % p, value));
        let values = self.values.iter().filter_map(entry).collect();
        Words { sizes: vec![p, left], values }
    }

    /// A sheet of the net without the arcs of these transitions.
    pub fn without_arcs(&self, net: &Words, dropped: &BTreeSet<u64>) -> Words {
        let (t, arcs) = (net.transitions(), self.nodes() * net.transitions());
        let left = t - dropped.len() as u64;
        let entry = |(&key, &value): (&u64, &u64)| {
            let moved = match key < arcs {
                true => key / t * left + Words::moved(key % t, dropped)?,
                false => key - arcs + self.nodes() * left,
            };
            Some((moved, value))
        };
        let values = self.values.iter().filter_map(entry).collect();
        Words { sizes: self.sizes.clone(), values }
    }
}
