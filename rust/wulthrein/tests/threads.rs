//! Calls from eight threads at once, each on buffers of its own, beside those of one thread.

mod common;

use common::{bytes, listed, sample};
use std::sync::Barrier;
use std::thread;
use wulthrein::{check, fire, run, short_form, Checked, Refused, Run, SCRATCH_BYTES, SHEET_BYTES};

const THREADS: usize = 8;
const VARIANTS: u32 = 20;

struct Case {
    net: Vec<u8>,
    sheet: Vec<u8>,
    record: Vec<u8>,
    node: u32,
    transition: u32,
}

/// What the four calls answer, and what they leave.
#[derive(Debug, PartialEq)]
struct Answers {
    checked: Result<Checked, Refused>,
    run: Result<Run, Refused>,
    form: Result<Vec<u8>, Refused>,
    fired: Result<u32, Refused>,
    out: Vec<u8>,
    clear: bool,
}

/// Scratch and output, used again and again as they are.
struct Lent {
    scratch: Vec<u8>,
    out: Vec<u8>,
}

impl Lent {
    fn new(filling: u8) -> Lent {
        Lent { scratch: vec![filling; SCRATCH_BYTES], out: vec![0; SHEET_BYTES] }
    }

    fn answers(&mut self, case: &Case) -> Answers {
        let Case { net, sheet, record, node, transition } = case;
        let Lent { scratch, out } = self;
        out.fill(0xa5);
        scratch[0] = 1;
        let checked = check(net, sheet, scratch);
        let run = run(net, sheet, record, scratch);
        let form = short_form(net, sheet, out, scratch).map(<[u8]>::to_vec);
        let fired = fire(net, sheet, *node, *transition, scratch);
        Answers {
            checked,
            run,
            form,
            fired,
            out: out.clone(),
            clear: scratch.iter().all(|&byte| byte == 0),
        }
    }
}

/// The samples with records and firings by chance, every second time with a word changed.
fn cases() -> Vec<Case> {
    let mut state = 3u32;
    let mut chance = move |limit: usize| {
        state = state.wrapping_mul(1_664_525).wrapping_add(1_013_904_223);
        (state >> 8) as usize % limit
    };
    let mut cases = Vec::new();
    for (name, _) in listed() {
        for variant in 0..VARIANTS {
            let (mut net, mut sheet) = sample(&name);
            if variant % 2 == 1 {
                let words = if variant % 4 == 3 { &mut net } else { &mut sheet };
                let byte = chance(words.len()) & !3;
                words[byte] = words[byte].wrapping_add([1, 255, 2, 7][chance(4)]);
            }
            let firings: Vec<u32> = (0..chance(5)).map(|_| chance(3) as u32).collect();
            cases.push(Case {
                net,
                sheet,
                record: bytes(&firings),
                node: chance(4) as u32,
                transition: chance(3) as u32,
            });
        }
    }
    cases
}

#[test]
fn eight_threads_answer_as_one() {
    let cases = cases();
    let mut lent = Lent::new(0);
    let one: Vec<Answers> = cases.iter().map(|case| lent.answers(case)).collect();
    let accepted = one.iter().filter(|answers| answers.checked.is_ok()).count();
    assert!(accepted > 50 && one.len() - accepted > 50, "{accepted} of {} are accepted", one.len());
    let start = Barrier::new(THREADS);
    thread::scope(|scope| {
        for number in 0..THREADS {
            let (cases, one, start) = (&cases, &one, &start);
            scope.spawn(move || {
                let mut lent = Lent::new(number as u8);
                start.wait();
                // each begins with another case, so that at one moment there are different ones
                for index in (0..cases.len())
                    .map(|index| (index + number * cases.len() / THREADS) % cases.len())
                {
                    assert_eq!(
                        lent.answers(&cases[index]),
                        one[index],
                        "thread {number}, case {index}"
                    );
                }
            });
        }
    });
}
