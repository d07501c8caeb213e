//! What holds of reaction times (request #112): no run takes less than the best or more than the worst,
//! and where the runs are few enough to be followed all, some run takes each.

use super::{generate, Call, Kind, Rng, Sheet, Tally, SCHEDULES, SEED};
use crate::generate::schedules::Schedule;

/// The firings of all runs that are followed before these are too many.
const MOST: usize = 20_000;

pub fn check(tally: &mut Tally) {
    let mut met = [0, 0];
    for index in 0..SCHEDULES {
        let rng = &mut Rng::for_case(SEED + 5, index);
        let schedule = generate::durations::timed(rng);
        let (net, sheet) = schedule.words();
        let mut call = Call::new(Kind::React, &net, &sheet);
        call.record = generate::durations::any(rng, &schedule.net);
        let is = call.put();
        if is.reply[0] != 0 {
            continue;
        }
        let mut times = call.result(&is).chunks(2).map(|pair| (pair[0], pair[1]));
        for (node, source) in asked(&schedule) {
            let told = times.next();
            let runs = Runs::from(&schedule, &call.record, node, source);
            met[usize::from(runs.all)] += 1;
            let lies_within = |(best, worst): (u32, u32)| best <= runs.best && runs.worst <= worst;
            let right = match runs.all {
                true => told == Some((runs.best, runs.worst)),
                false => told.map_or(false, lies_within),
            };
            tally.check(right, || format!("node {node}, source {source}: {}", call.text()));
        }
        tally.check(times.next().is_none(), || format!("no more: {}", call.text()));
    }
    println!("sources whose runs are all followed: {}, of which some are: {}", met[1], met[0]);
    tally.check(met.iter().all(|&met| met > 50), || "too few runs".to_string());
}

/// The await nodes and sources in the order of their times.
fn asked(schedule: &Schedule) -> Vec<(usize, usize)> {
    let Schedule { net, sheet } = schedule;
    let awaits = (0..sheet.nodes()).filter(|&node| sheet.is_await(net, node));
    awaits.flat_map(|node| net.sources().into_iter().map(move |source| (node, source))).collect()
}

/// The runs from an await node by one source to the next await node.
struct Runs {
    /// The least time of a run whose firings take as little as they can, and the greatest.
    best: u32,
    worst: u32,
    /// Whether every run is among those followed.
    all: bool,
}

impl Runs {
    fn from(schedule: &Schedule, durations: &[u32], node: usize, source: usize) -> Runs {
        let Schedule { net, sheet } = schedule;
        let own = |t: usize| (durations[1 + t], durations[1 + net.transitions() + t]);
        let target = |sheet: &Sheet, node: usize, t: usize| sheet.arcs[node][t].unwrap_or(0);
        let mut runs = Runs { best: u32::MAX, worst: 0, all: true };
        let mut waiting = vec![(target(sheet, node, source), own(source))];
        let mut followed = 0;
        while let Some((node, (least, greatest))) = waiting.pop() {
            if sheet.is_await(net, node) {
                runs.best = runs.best.min(least);
                runs.worst = runs.worst.max(greatest);
                continue;
            }
            followed += 1;
            if followed > MOST {
                runs.all = false;
                break;
            }
            for t in sheet.offered(node) {
                let later = (least + own(t).0, greatest + own(t).1);
                waiting.push((target(sheet, node, t), later));
            }
        }
        runs
    }
}
