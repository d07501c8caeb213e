//! A call with everything it lends, and what it leaves behind.

use crate::model::{self, Walker, FORM, LINES, PANEL, SCRATCH, TASKS};
use std::collections::BTreeSet;

#[derive(Clone, Copy, PartialEq, Eq, PartialOrd, Ord)]
pub enum Kind {
    NetCheck,
    SheetCheck,
    PlaceBounds,
    FreshWalker,
    SingleFiring,
    Run,
    ShortForm,
    Replay,
    Mend,
    Compose,
    Trim,
    React,
    Compare,
    Plain,
}

use Kind::{
    Compare, Compose, FreshWalker, Mend, NetCheck, PlaceBounds, Plain, React, Replay, Run,
    SheetCheck, ShortForm, SingleFiring, Trim,
};

/// The operations that the program `calls` plays, and of which `cases` makes cases. One that the
/// program does not play yet is left out here; the reference knows and tests all of `Kind::ALL`.
pub const OPERATIONS: &[Kind] = &[
    NetCheck,
    SheetCheck,
    PlaceBounds,
    FreshWalker,
    SingleFiring,
    Run,
    ShortForm,
    Replay,
    Mend,
    Compose,
    Trim,
    React,
    Compare,
    Plain,
];

/// The numbers of a net that is refused, and 0: §7.55.
const OF_NET: [u64; 7] = [0, 1, 2, 3, 4, 5, 26];
/// The numbers of a sheet that is refused as a schedule, and of the scratch lent: §7.56, §7.57.
const OF_SHEET: [u64; 14] = [6, 7, 8, 9, 10, 11, 12, 13, 14, 15, 16, 17, 21, 27];

impl Kind {
    pub const ALL: [Kind; 14] = [
        NetCheck,
        SheetCheck,
        PlaceBounds,
        FreshWalker,
        SingleFiring,
        Run,
        ShortForm,
        Replay,
        Mend,
        Compose,
        Trim,
        React,
        Compare,
        Plain,
    ];

    pub fn name(self) -> &'static str {
        match self {
            NetCheck => "net",
            SheetCheck => "check",
            PlaceBounds => "bounds",
            FreshWalker => "fresh",
            SingleFiring => "fire",
            Run => "run",
            ShortForm => "form",
            Replay => "replay",
            Mend => "mend",
            Compose => "compose",
            Trim => "trim",
            React => "react",
            Compare => "compare",
            Plain => "plain",
        }
    }

    /// The operation's number in a case; 8 asks for weights.
    pub fn operation(self) -> u32 {
        match self {
            Replay => 9,
            Mend => 10,
            Compose => 11,
            Trim => 12,
            React => 13,
            Compare => 14,
            Plain => 15,
            _ => self as u32 + 1,
        }
    }

    /// The words before each of the call's own numbers.
    pub fn own(self) -> &'static [&'static str] {
        match self {
            SheetCheck | Plain => &["nodes", "arcs", "awaits"],
            SingleFiring => &["entry"],
            Run => &["fired", "node", "entry"],
            ShortForm | React => &["length"],
            Replay => &["taken", "put", "entry"],
            Mend | Trim => &["length", "list"],
            Compose => &["length", "sheet"],
            Compare => &["length", "length", "same", "sheet"],
            _ => &[],
        }
    }

    /// Every number that it answers: §7.54 to §7.62.
    pub fn numbers(self) -> BTreeSet<u64> {
        let own: &[u64] = match self {
            NetCheck | FreshWalker | SheetCheck | Plain => &[],
            PlaceBounds | ShortForm | Compare => &[22],
            SingleFiring => &[18, 19, 20],
            Run => &[20, 22],
            Replay => &[20, 22, 23, 24],
            Mend => &[6, 7, 8, 9, 11, 12, 13, 16, 17, 21, 22, 25],
            Compose => &[22, 28, 29, 30],
            Trim => &[6, 7, 8, 9, 21, 22],
            React => &[22, 32, 33],
        };
        let of_sheet = if self.checks_whole() { &OF_SHEET[..] } else { &[] };
        OF_NET.iter().chain(of_sheet).chain(own).copied().collect()
    }

    /// Whether it reads a sheet and borrows scratch: §9.1.
    pub fn reads_sheet(self) -> bool {
        self.sheets() > 0
    }

    /// How many sheets it reads.
    pub fn sheets(self) -> usize {
        match self {
            NetCheck | FreshWalker => 0,
            Compare => 2,
            Compose => TASKS,
            _ => 1,
        }
    }

    /// Whether what it reads as sheets has to be schedules, counts and all.
    pub fn checks_whole(self) -> bool {
        self.reads_sheet() && !matches!(self, Mend | Trim)
    }

    /// Whether the small panel has it: §10.20.
    pub fn on_panel(self) -> bool {
        self.reads_sheet() && self.operation() <= 10
    }

    pub fn writes_out(self) -> bool {
        matches!(self, PlaceBounds | Run | ShortForm | Mend | Compose | Trim | React | Compare)
    }

    /// Whether it has a second output buffer of words.
    pub fn writes_list(self) -> bool {
        matches!(self, Mend | Trim | Compare)
    }

    /// Whether it is handed a record, a log or durations.
    pub fn has_record(self) -> bool {
        matches!(self, Run | Replay | React)
    }

    /// Whether it has two output buffers, of 64 bits to the number.
    pub fn writes_sums(self) -> bool {
        self == Replay
    }

    pub fn hands_walker(self) -> bool {
        matches!(self, FreshWalker | SingleFiring)
    }
}

/// A call's words and the buffers lent to it; a call looks only at what its kind has.
#[derive(Clone)]
pub struct Call {
    pub kind: Kind,
    /// Whether it is the small panel's: request #107, §10.20.
    pub panel: bool,
    pub net: Vec<u32>,
    pub sheet: Vec<u32>,
    /// How many sheets a composition is told there are.
    pub number: u32,
    /// The sheets behind the first, of a call that reads several.
    pub others: Vec<Vec<u32>>,
    pub record: Vec<u32>,
    pub transition: u32,
    pub walker: Walker,
    pub out: Vec<u32>,
    pub list: Vec<u32>,
    pub sums: [Vec<u64>; 2],
    pub scratch: Vec<u32>,
}

/// The reply's plain numbers, and what walker and buffers hold afterwards.
#[derive(Clone, PartialEq, Eq)]
pub struct Outcome {
    pub reply: Vec<u64>,
    pub walker: Walker,
    pub out: Vec<u32>,
    pub list: Vec<u32>,
    pub sums: [Vec<u64>; 2],
    pub scratch: Vec<u32>,
}

impl Call {
    /// A call with output buffers that hold every result and scratch that passes 21.
    pub fn new(kind: Kind, net: &[u32], sheet: &[u32]) -> Call {
        Call {
            kind,
            panel: false,
            net: net.to_vec(),
            sheet: sheet.to_vec(),
            number: 0,
            others: vec![Vec::new(); kind.sheets().saturating_sub(1)],
            record: Vec::new(),
            transition: 0,
            walker: [0; 1 + LINES],
            out: vec![0; FORM],
            list: vec![0; FORM],
            sums: [vec![0; LINES], vec![0; LINES]],
            scratch: vec![0; SCRATCH],
        }
    }

    /// A sheet check played by the plain engine: every case of the one is one of the other.
    pub fn plainly(&self) -> Option<Call> {
        let checks = self.kind == SheetCheck && !self.panel;
        checks.then(|| Call { kind: Plain, ..self.clone() })
    }

    /// The operation's number in a case: the panel's calls have 100 more.
    pub fn operation(&self) -> u32 {
        self.kind.operation() + 100 * u32::from(self.panel)
    }

    /// The words of scratch below which it is refused by 21.
    pub fn limit(&self) -> usize {
        if self.panel {
            PANEL
        } else {
            SCRATCH
        }
    }

    /// What the model leaves behind. On the panel that is what the call leaves with a larger scratch,
    /// but for the scratch: §10.20.
    pub fn put(&self) -> Outcome {
        if !self.panel {
            return self.put_larger();
        }
        let (mut scratch, passes) = (self.scratch.clone(), self.scratch.len() >= PANEL);
        let larger = vec![0; if passes { SCRATCH } else { 0 }];
        scratch.iter_mut().take(if passes { PANEL } else { 0 }).for_each(|word| *word = 0);
        Outcome { scratch, ..Call { scratch: larger, ..self.clone() }.put_larger() }
    }

    fn put_larger(&self) -> Outcome {
        let Call { net, sheet, record, transition, .. } = self;
        let Call { mut walker, mut out, mut list, mut sums, mut scratch, .. } = self.clone();
        let reply = match self.kind {
            NetCheck => model::net_check(net).to_vec(),
            SheetCheck => model::sheet_check(net, sheet, &mut scratch).to_vec(),
            Plain => model::plain_check(net, sheet, &mut scratch).to_vec(),
            PlaceBounds => model::place_bounds(net, sheet, &mut out, &mut scratch).to_vec(),
            FreshWalker => model::fresh_walker(net, &mut walker).to_vec(),
            SingleFiring => {
                model::single_firing(net, sheet, &mut walker, *transition, &mut scratch).to_vec()
            }
            Run => model::run(net, sheet, record, &mut out, &mut scratch).to_vec(),
            ShortForm => model::short_form(net, sheet, &mut out, &mut scratch).to_vec(),
            Replay => {
                let [taken, put] = &mut sums;
                model::replay(net, sheet, record, taken, put, &mut scratch).to_vec()
            }
            Mend => model::mend(net, sheet, &mut out, &mut list, &mut scratch).to_vec(),
            Compose => {
                let others = &self.others;
                let sheets = [&sheet[..], &others[0], &others[1], &others[2]];
                model::compose(net, self.number, sheets, &mut out, &mut scratch).to_vec()
            }
            Trim => model::trim(net, sheet, &mut out, &mut list, &mut scratch).to_vec(),
            React => model::react(net, sheet, record, &mut out, &mut scratch).to_vec(),
            Compare => {
                let (sheets, outs) = ([&sheet[..], &self.others[0]], [&mut out[..], &mut list]);
                model::compare(net, sheets, outs, &mut scratch).to_vec()
            }
        };
        Outcome { reply, walker, out, list, sums, scratch }
    }

    /// The words that the call wrote or handed back.
    pub fn result<'a>(&self, outcome: &'a Outcome) -> &'a [u32] {
        if self.kind.hands_walker() {
            return &outcome.walker;
        }
        let length = match self.kind {
            _ if outcome.reply[0] != 0 => 0,
            PlaceBounds | Run => self.net.first().map_or(0, |&places| places as usize),
            ShortForm | Mend | Compose | Trim | React | Compare => outcome.reply[3] as usize,
            _ => 0,
        };
        &outcome.out[..length.min(outcome.out.len())]
    }

    /// How many words a call that answers lengths needs of its output buffers.
    pub fn lengths(&self) -> [usize; 2] {
        let roomy = Call::new(self.kind, &self.net, &self.sheet);
        let Call { out, list, scratch, .. } = roomy;
        let reply = Call { out, list, scratch, panel: false, ..self.clone() }.put().reply;
        let second = if self.kind.writes_list() { reply[4] as usize } else { 0 };
        [reply[3] as usize, second]
    }

    /// What a call wrote into its second buffer of words.
    pub fn listed<'a>(&self, outcome: &'a Outcome) -> &'a [u32] {
        let length = if self.kind.writes_list() { outcome.reply[4] as usize } else { 0 };
        &outcome.list[..length.min(outcome.list.len())]
    }
}
