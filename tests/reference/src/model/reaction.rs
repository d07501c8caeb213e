//! How long the firings take until the sheet waits again: request #112.

use super::{
    refuse, Net,
    Position::{Entry, Node, Nothing},
    Refusal, Sheet, MAX_DURATION,
};

/// For each transition its earliest and its latest duration in seconds.
pub struct Durations {
    earliest: Vec<u64>,
    latest: Vec<u64>,
}

impl Durations {
    /// T, then T earliest, then T latest, refused by 32.
    pub fn read(net: &Net, words: &[u32]) -> Result<Durations, Refusal> {
        let transitions = net.transitions();
        if words.len() != 1 + 2 * transitions || words[0] as usize != transitions {
            return refuse(32, Nothing);
        }
        let numbers: Vec<u64> = words[1..].iter().map(|&word| u64::from(word)).collect();
        let (earliest, latest) = numbers.split_at(transitions);
        let fits = |t: usize| latest[t] <= MAX_DURATION && earliest[t] <= latest[t];
        if let Some(t) = (0..transitions).find(|&t| !fits(t)) {
            return refuse(32, Entry(t));
        }
        Ok(Durations { earliest: earliest.to_vec(), latest: latest.to_vec() })
    }
}

impl Sheet {
    /// The targets of a busy node that are busy too.
    fn busy_targets(&self, net: &Net, node: usize) -> Vec<usize> {
        let busy = |&m: &usize| !self.is_await(net, m);
        self.arcs[node].iter().flatten().copied().filter(busy).collect()
    }

    /// Whether a busy node is reached again from it by way of busy nodes alone.
    fn is_on_loop(&self, net: &Net, node: usize) -> bool {
        let mut met = self.busy_targets(net, node);
        let mut next = 0;
        while next < met.len() {
            for target in self.busy_targets(net, met[next]) {
                if !met.contains(&target) {
                    met.push(target);
                }
            }
            next += 1;
        }
        met.contains(&node)
    }

    /// The best and the worst of each source at each await node, refused by 33 at the lowest node on a
    /// loop that avoids every await node. A node that leads to such a loop need not be on one.
    pub fn reaction_times(&self, net: &Net, durations: &Durations) -> Result<Vec<u32>, Refusal> {
        let busy = |&node: &usize| !self.is_await(net, node);
        if let Some(node) = (0..self.nodes()).filter(busy).find(|&n| self.is_on_loop(net, n)) {
            return refuse(33, Node(node));
        }
        let best = self.to_go(net, &durations.earliest, u64::min);
        let worst = self.to_go(net, &durations.latest, u64::max);
        let mut times = Vec::new();
        for node in (0..self.nodes()).filter(|&node| self.is_await(net, node)) {
            for source in net.sources() {
                let Some(target) = self.arcs[node][source] else {
                    continue;
                };
                times.push((durations.earliest[source] + best[target]) as u32);
                times.push((durations.latest[source] + worst[target]) as u32);
            }
        }
        Ok(times)
    }

    /// What each node has to go: an await node 0, a busy one the least or the greatest over its arcs of
    /// the transition's own duration and what the target has to go. Repeated from 0 everywhere until
    /// nothing changes, which it does not once the rounds are as many as a run can have firings.
    fn to_go(&self, net: &Net, own: &[u64], of_two: fn(u64, u64) -> u64) -> Vec<u64> {
        let mut to_go = vec![0; self.nodes()];
        loop {
            let by_arc = |node: usize| {
                let arcs = self.arcs[node].iter().enumerate();
                arcs.filter_map(|(t, target)| Some(own[t] + to_go[(*target)?])).reduce(of_two)
            };
            let time = |node: usize| match self.is_await(net, node) {
                true => 0,
                false => by_arc(node).unwrap_or(0),
            };
            let next: Vec<u64> = (0..self.nodes()).map(time).collect();
            if next == to_go {
                return to_go;
            }
            to_go = next;
        }
    }
}
