//! What the builders write, beside entries that are sorted and laid out here.

use std::collections::{BTreeMap, BTreeSet};
use wulthrein::{
    check, Buffer, Error, Misfit, Net, Record, Sheet, COUNT, ENTRIES, NET_BYTES, NODES, PLACES,
    SCRATCH_BYTES, SHEET_BYTES, TRANSITIONS,
};

/// Numbers by chance, the same ones each time.
struct Chance(u64);

impl Chance {
    fn below(&mut self, limit: u32) -> u32 {
        self.0 =
            self.0.wrapping_mul(6_364_136_223_846_793_005).wrapping_add(1_442_695_040_888_963_407);
        ((self.0 >> 33) % u64::from(limit)) as u32
    }
}

fn laid(head: &[u32], entries: &BTreeMap<u32, u32>) -> Vec<u8> {
    let count = entries.len() as u32;
    let words = head.iter().chain([&count]).chain(entries.keys()).chain(entries.values());
    words.flat_map(|word| word.to_le_bytes()).collect()
}

/// Entries in any order, some of them again, some of them taken out.
fn write_net<B: Buffer>(
    mut net: Net<B>,
    chance: &mut Chance,
    times: u32,
) -> (Net<B>, BTreeMap<u32, u32>) {
    let (places, transitions) = (net.places(), net.transitions());
    let mut entries = BTreeMap::new();
    for _ in 0..times {
        let (place, transition) = (chance.below(places), chance.below(transitions));
        let weight = chance.below(4) * chance.below(COUNT / 3);
        let (row, written) = match chance.below(4) {
            0 => (transition, net.takes(transition, place, weight).map(drop)),
            1 => (transitions + transition, net.puts(transition, place, weight).map(drop)),
            2 => (2 * transitions, net.starts(place, weight).map(drop)),
            _ if weight == 0 => (2 * transitions + 1, net.unbounded(place).map(drop)),
            _ => (2 * transitions + 1, net.capacity(place, weight).map(drop)),
        };
        let key = row * places + place;
        match (written, weight) {
            (Ok(()), 0) => drop(entries.remove(&key)),
            (Ok(()), weight) => drop(entries.insert(key, weight)),
            (Err(misfit), _) => {
                assert!(misfit == Misfit::NoRoom && !entries.contains_key(&key), "{misfit}")
            }
        }
        assert_eq!(net.as_ref(), laid(&[places, transitions], &entries));
    }
    (net, entries)
}

#[test]
fn nets_are_laid_out() {
    let mut chance = Chance(1);
    for _ in 0..200 {
        let (places, transitions) = (1 + chance.below(PLACES), 1 + chance.below(TRANSITIONS));
        let times = chance.below(120);
        write_net(Net::within([0xa5; NET_BYTES], places, transitions).unwrap(), &mut chance, times);
        let mut room = [0xa5; 200];
        let (_, entries) =
            write_net(Net::within(&mut room, places, transitions).unwrap(), &mut chance, times);
        assert!(entries.len() <= (200 / 4 - 3) / 2);
        let mut room = vec![0xa5; 200];
        write_net(
            Net::within(room.as_mut_slice(), places, transitions).unwrap(),
            &mut chance,
            times,
        );
        assert_eq!(room.len(), 200);
        #[cfg(feature = "alloc")]
        write_net(Net::new(places, transitions).unwrap(), &mut chance, times);
    }
}

#[test]
fn the_longest_net_fits() {
    let mut net = Net::within([0; NET_BYTES], PLACES, TRANSITIONS).unwrap();
    for place in 0..PLACES {
        net.starts(place, COUNT).unwrap().capacity(place, COUNT).unwrap();
        for transition in 0..TRANSITIONS {
            net.takes(transition, place, COUNT).unwrap().puts(transition, place, COUNT).unwrap();
        }
    }
    assert_eq!(net.as_ref().len(), NET_BYTES);
}

#[test]
fn sheets_are_laid_out() {
    let mut chance = Chance(2);
    for _ in 0..200 {
        let (places, transitions, nodes) =
            (1 + chance.below(PLACES), 1 + chance.below(TRANSITIONS), 1 + chance.below(NODES));
        let net = Net::within([0; 64], places, transitions).unwrap();
        let mut sheet = Sheet::within([0xa5; SHEET_BYTES], &net, nodes).unwrap();
        let mut entries = BTreeMap::new();
        for _ in 0..chance.below(200) {
            let (node, place, transition) =
                (chance.below(nodes), chance.below(places), chance.below(transitions));
            if chance.below(2) == 0 {
                let target = chance.below(nodes);
                sheet.arc(node, transition, target).unwrap();
                entries.insert(node * transitions + transition, target);
            } else {
                let count = chance.below(3) * chance.below(COUNT / 2);
                sheet.count(node, place, count).unwrap();
                let key = nodes * transitions + node * places + place;
                match count {
                    0 => entries.remove(&key),
                    _ => entries.insert(key, count),
                };
            }
            assert_eq!(sheet.as_ref(), laid(&[nodes], &entries));
        }
        assert_eq!(sheet.nodes(), nodes);
    }
}

/// The words are in form: of those checks that are about form none fails, and those behind them are met.
#[test]
fn what_is_built_is_in_form() {
    let (mut chance, mut scratch, mut met) = (Chance(3), vec![0; SCRATCH_BYTES], BTreeSet::new());
    for _ in 0..500 {
        let (places, transitions, nodes) =
            (1 + chance.below(3), 1 + chance.below(4), 1 + chance.below(3));
        let times = chance.below(5);
        let (net, _) =
            write_net(Net::within([0; 500], places, transitions).unwrap(), &mut chance, times);
        let mut sheet = Sheet::within([0; 500], &net, nodes).unwrap();
        for _ in 0..chance.below(12) {
            sheet.arc(chance.below(nodes), chance.below(transitions), chance.below(nodes)).unwrap();
            sheet.count(chance.below(nodes), chance.below(places), chance.below(9)).unwrap();
        }
        met.insert(
            check(&net, &sheet, &mut scratch)
                .map_or_else(|refused| refused.refusal().number(), |_| 0),
        );
    }
    assert!(
        met.iter().all(|number| !(1..=4).contains(number) && !(6..=9).contains(number)),
        "{met:?}"
    );
    assert!([5, 10, 11, 12].iter().all(|number| met.contains(number)), "{met:?}");
}

#[test]
fn a_sheet_has_so_many_entries_and_no_more() {
    let net = Net::within([0; 64], PLACES, TRANSITIONS).unwrap();
    let mut sheet = Sheet::within([0; SHEET_BYTES], &net, NODES).unwrap();
    for key in 0..ENTRIES {
        sheet.arc(key / TRANSITIONS, key % TRANSITIONS, 5).unwrap();
    }
    assert_eq!(sheet.as_ref().len(), SHEET_BYTES);
    assert_eq!(sheet.count(0, 0, 1).unwrap_err(), Misfit::TooManyEntries);
    sheet.arc(3, 3, 9).unwrap().count(0, 0, 0).unwrap();
    assert_eq!(sheet.as_ref().len(), SHEET_BYTES);
}

#[test]
fn what_does_not_fit_is_told_and_changes_nothing() {
    assert_eq!(Net::within([0; 64], 0, 1).unwrap_err(), Misfit::Places(0));
    assert_eq!(Net::within([0; 64], 33, 1).unwrap_err(), Misfit::Places(33));
    assert_eq!(Net::within([0; 64], 1, 0).unwrap_err(), Misfit::Transitions(0));
    assert_eq!(Net::within([0; 64], 1, 33).unwrap_err(), Misfit::Transitions(33));
    assert_eq!(Net::within([0; 11], 1, 1).unwrap_err(), Misfit::NoRoom);
    let mut net = Net::within([0; 20], 2, 3).unwrap();
    assert_eq!(net.takes(3, 0, 1).unwrap_err(), Misfit::NoSuchTransition(3));
    assert_eq!(net.puts(3, 0, 1).unwrap_err(), Misfit::NoSuchTransition(3));
    assert_eq!(net.takes(0, 2, 1).unwrap_err(), Misfit::NoSuchPlace(2));
    assert_eq!(net.starts(2, 1).unwrap_err(), Misfit::NoSuchPlace(2));
    assert_eq!(net.capacity(0, COUNT + 1).unwrap_err(), Misfit::TooLarge(COUNT + 1));
    assert_eq!(net.capacity(0, 0).unwrap_err(), Misfit::NoCapacity);
    net.starts(1, 4).unwrap();
    let before = net.as_ref().to_vec();
    assert_eq!(net.puts(0, 0, 1).unwrap_err(), Misfit::NoRoom);
    assert_eq!(net.as_ref(), before);
    assert_eq!(Sheet::within([0; 64], &net, 0).unwrap_err(), Misfit::Nodes(0));
    assert_eq!(Sheet::within([0; 64], &net, 129).unwrap_err(), Misfit::Nodes(129));
    assert_eq!(Sheet::within([0; 7], &net, 2).unwrap_err(), Misfit::NoRoom);
    let mut sheet = Sheet::within([0; 16], &net, 2).unwrap();
    assert_eq!(sheet.arc(2, 0, 0).unwrap_err(), Misfit::NoSuchNode(2));
    assert_eq!(sheet.arc(0, 0, 2).unwrap_err(), Misfit::NoSuchNode(2));
    assert_eq!(sheet.arc(0, 3, 0).unwrap_err(), Misfit::NoSuchTransition(3));
    assert_eq!(sheet.count(2, 0, 1).unwrap_err(), Misfit::NoSuchNode(2));
    assert_eq!(sheet.count(0, 2, 1).unwrap_err(), Misfit::NoSuchPlace(2));
    assert_eq!(sheet.count(0, 0, COUNT + 1).unwrap_err(), Misfit::TooLarge(COUNT + 1));
    assert_eq!(sheet.count(0, 1, 1).unwrap().arc(0, 0, 1).unwrap_err(), Misfit::NoRoom);
}

#[test]
fn misfits_are_told_in_words() {
    for (misfit, words) in [
        (Misfit::Places(33), "a net has 1 to 32 places, not 33"),
        (Misfit::Transitions(0), "a net has 1 to 32 transitions, not 0"),
        (Misfit::Nodes(129), "a sheet has 1 to 128 nodes, not 129"),
        (Misfit::NoSuchPlace(2), "the net has no place 2"),
        (Misfit::NoSuchTransition(3), "the net has no transition 3"),
        (Misfit::NoSuchNode(4), "the sheet has no node 4"),
        (Misfit::TooLarge(COUNT + 1), "1000000001 is more than 1000000000"),
        (Misfit::NoCapacity, "a capacity is never 0"),
        (Misfit::TooManyEntries, "a sheet has at most 4096 entries"),
        (Misfit::NoRoom, "the buffer has no room for it"),
    ] {
        assert_eq!(misfit.to_string(), words);
        assert_eq!(Error::from(misfit).to_string(), words);
    }
}

#[test]
fn records_are_laid_out() {
    let mut record = Record::within([0; 9]);
    assert!(record.is_empty());
    record.push(1).unwrap().push(u32::MAX).unwrap();
    assert_eq!(record.push(2).unwrap_err(), Misfit::NoRoom);
    assert_eq!((record.as_ref(), record.len()), (&[1, 0, 0, 0, 255, 255, 255, 255][..], 2));
    record.clear();
    assert_eq!(record.push(3).unwrap().as_ref(), [3, 0, 0, 0]);
}

#[cfg(feature = "alloc")]
#[test]
fn records_are_collected() {
    let mut record: Record<Vec<u8>> = (0..3).collect();
    record.clear();
    record.extend([7, 8]);
    record.push(9).unwrap();
    let mut one_by_one = Record::new();
    one_by_one.push(7).unwrap().push(8).unwrap().push(9).unwrap();
    assert_eq!(record.as_ref(), one_by_one.as_ref());
    assert_eq!(record.as_ref().len(), 12);
}
