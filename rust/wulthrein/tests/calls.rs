//! The calls on the samples, beside the answers that the samples' list gives; every refusal with its position.

mod common;

use common::{bytes, listed, sample};
use std::collections::BTreeSet;
use wulthrein::{
    check, fire, run, short_form, Position, Refusal, Refused, SCRATCH_BYTES, SHEET_BYTES,
};

const FILL_DRAIN: [u32; 7] = [1, 2, 2, 1, 2, 1, 1];
const ONCE: [u32; 8] = [2, 3, 0, 3, 5, 1, 0, 1];
const TWICE: [u32; 14] = [4, 6, 0, 3, 4, 7, 9, 11, 1, 2, 3, 0, 1, 1];

fn scratch() -> Vec<u8> {
    vec![0x5a; SCRATCH_BYTES]
}

/// An answer as the list of samples has it.
fn line(refused: &Refused) -> String {
    let (kind, index) = match refused.position() {
        None => ("none", 0),
        Some(Position::NetEntry(entry) | Position::SheetEntry(entry)) => ("entry", entry),
        Some(Position::Place(place)) => ("place", place),
        Some(Position::Node(node)) => ("node", node),
        Some(other) => panic!("{other}"),
    };
    format!("answer {} {kind} {index}", refused.refusal().number())
}

#[test]
fn samples_are_answered_as_listed() {
    let mut met = BTreeSet::new();
    for (name, answer) in listed() {
        let (net, sheet) = sample(&name);
        let (mut lent, mut out) = (scratch(), vec![7; SHEET_BYTES]);
        let checked = check(&net, &sheet, &mut lent);
        assert!(lent.iter().all(|&byte| byte == 0), "{name}: scratch");
        let ran = run(&net, &sheet, [], &mut lent);
        let formed = short_form(&net, &sheet, &mut out, &mut lent).map(<[u8]>::to_vec);
        let fired = fire(&net, &sheet, 0, 0, &mut lent);
        match checked {
            Ok(checked) => {
                assert_eq!(answer, "answer 0 none 0", "{name}");
                let (ran, form) = (ran.unwrap(), formed.unwrap());
                assert_eq!(
                    (ran.fired, ran.node, ran.entry, ran.counts().len()),
                    (0, 0, None, net[0].into()),
                    "{name}"
                );
                assert!(fired.unwrap() < checked.nodes, "{name}");
                assert!(out[form.len()..].iter().all(|&byte| byte == 7), "{name}: past the form");
                assert!(check(&net, &form, &mut lent).unwrap().nodes <= checked.nodes, "{name}");
                assert_eq!(short_form(&net, &form, &mut out, &mut lent).unwrap(), form, "{name}");
            }
            Err(refused) => {
                assert_eq!(answer, line(&refused), "{name}");
                assert_eq!((ran.unwrap_err(), formed.unwrap_err()), (refused, refused), "{name}");
                assert_eq!(
                    (fired.unwrap_err().refusal(), fired.unwrap_err().position()),
                    (refused.refusal(), None),
                    "{name}"
                );
                assert!(out.iter().all(|&byte| byte == 7), "{name}: out");
                met.insert(refused.refusal());
            }
        }
    }
    met.extend(of_the_call().map(|(refused, _)| refused.refusal()));
    assert_eq!(met, BTreeSet::from(Refusal::ALL));
}

/// Refusals that no sample has, for they are those of the firing or of the buffers, and their words.
fn of_the_call() -> [(Refused, &'static str); 6] {
    let (net, sheet) = (bytes(&FILL_DRAIN), bytes(&ONCE));
    let lent = &mut scratch();
    let small = &mut scratch()[1..].to_vec();
    [
        (fire(&net, &sheet, 2, 0, lent).unwrap_err(), "refused by 18 no such node: the sheet has fewer nodes"),
        (fire(&net, &sheet, 0, 1, lent).unwrap_err(), "refused by 20 not offered: the node has no arc for the transition"),
        (
            run(&net, &sheet, bytes(&[0, 1, 1]), lent).unwrap_err(),
            "refused by 20 not offered at firing 2 of the record: the node has no arc for the transition",
        ),
        (check(&net, &sheet, small).unwrap_err(), "refused by 21 small scratch: too few bytes of scratch were lent"),
        (short_form(&net, &sheet, &mut [0; 31], lent).unwrap_err(), "refused by 22 small out: the result does not fit into the buffer"),
        (
            check(&net[1..], &sheet, lent).unwrap_err(),
            "refused by 31 broken word: the length of an input in bytes is no multiple of four",
        ),
    ]
}

#[test]
fn refusals_are_told_in_words() {
    for (refused, words) in of_the_call() {
        assert_eq!(refused.to_string(), words);
    }
    let (net, sheet) = sample("15-wrong-landing");
    let refused = check(net, sheet, &mut scratch()).unwrap_err();
    assert_eq!(refused.to_string(), "refused by 15 wrong landing at entry 0 of the sheet: the target does not hold what firing gives");
    assert_eq!(
        refused.refusal().to_string(),
        "15 wrong landing: the target does not hold what firing gives"
    );
    let (net, sheet) = sample("04-net-weight");
    let refused = check(net, sheet, &mut scratch()).unwrap_err();
    assert_eq!(
        refused.to_string(),
        "refused by 4 net weight at entry 1 of the net: the weight is 0 or too large"
    );
}

#[test]
fn numbers_and_names_are_those_of_the_header() {
    let header =
        std::fs::read_to_string(concat!(env!("CARGO_MANIFEST_DIR"), "/../../include/wulthrein.h"))
            .unwrap();
    for refusal in Refusal::ALL {
        let name = refusal.name().to_uppercase().replace(' ', "_");
        let found = header.lines().any(|line| {
            line.trim_start().starts_with(&format!("WULTHREIN_{name} = {}", refusal.number()))
        });
        assert!(found, "{name}");
        assert_eq!(Refusal::from_number(refusal.number()), Some(refusal));
    }
    let limits = [
        ("PLACES", wulthrein::PLACES as usize),
        ("TRANSITIONS", wulthrein::TRANSITIONS as usize),
        ("NODES", wulthrein::NODES as usize),
        ("ENTRIES", wulthrein::ENTRIES as usize),
        ("COUNT", wulthrein::COUNT as usize),
        ("SCRATCH_BYTES", SCRATCH_BYTES),
        ("NET_BYTES", wulthrein::NET_BYTES),
        ("SHEET_BYTES", SHEET_BYTES),
    ];
    for (name, value) in limits {
        assert!(header.contains(&format!("#define WULTHREIN_{name} {value}u")), "{name}");
    }
    assert!((0..100).filter_map(Refusal::from_number).eq(Refusal::ALL));
}

#[test]
fn runs_tell_node_entry_and_counts() {
    let (net, sheet) = (bytes(&FILL_DRAIN), bytes(&TWICE));
    let ran = run(&net, &sheet, bytes(&[0, 1, 0]), &mut scratch()).unwrap();
    assert_eq!((ran.fired, ran.node, ran.entry, ran.counts()), (3, 3, Some(2), &[1][..]));
    assert_eq!(format!("{ran:?}"), "Run { fired: 3, node: 3, entry: Some(2), counts: [1] }");
    let (net, sheet) = sample("jetty");
    let ran = run(&net, &sheet, bytes(&[0, 1, 2, 0, 1, 3, 5, 2, 4]), &mut scratch()).unwrap();
    assert_eq!((ran.fired, ran.node, ran.counts()), (9, 0, &[0, 1, 0, 0, 0][..]));
}

#[test]
fn small_scratch_is_left_alone() {
    let (net, sheet) = (bytes(&FILL_DRAIN), bytes(&ONCE));
    let mut lent = vec![0x5a; SCRATCH_BYTES - 1];
    for refused in [
        check(&net, &sheet, &mut lent).unwrap_err(),
        run(&net, &sheet, [], &mut lent).unwrap_err(),
        short_form(&net, &sheet, &mut [0; 100], &mut lent).unwrap_err(),
        fire(&net, &sheet, 0, 0, &mut lent).unwrap_err(),
    ] {
        assert_eq!(refused.refusal(), Refusal::SmallScratch);
    }
    assert!(lent.iter().all(|&byte| byte == 0x5a));
}

#[cfg(any(core_error, feature = "std"))]
#[test]
fn errors_are_errors() {
    fn is_one<E: std::error::Error + Send + Sync + 'static>() {}
    is_one::<Refused>();
    is_one::<wulthrein::Misfit>();
    is_one::<wulthrein::Error>();
}
