//! Why a call refused, and where.

use crate::word;
use core::fmt;

/// Why a call refused. A call asks one check after the other and names the first that fails.
///
/// The numbers are those of part 7 of the specification, all that these calls give.
#[derive(Clone, Copy, Debug, PartialEq, Eq, PartialOrd, Ord, Hash)]
#[non_exhaustive]
#[repr(u8)]
pub enum Refusal {
    /// The net is shorter or longer than its words say.
    RaggedNet = 1,
    /// Too few or too many places, transitions or entries of the net.
    NetSize = 2,
    /// At an entry of the net: its key does not rise, or is no key.
    NetOrder = 3,
    /// At an entry of the net: its weight is 0 or too large.
    NetWeight = 4,
    /// Every transition takes something, so that the net has no source.
    NoSource = 5,
    /// The sheet is shorter or longer than its words say.
    RaggedSheet = 6,
    /// Too few or too many nodes or entries of the sheet.
    SheetSize = 7,
    /// At an entry of the sheet: its key does not rise, or is no key.
    SheetOrder = 8,
    /// At an entry of the sheet: an arc to no node, or a count that is 0 or too large.
    SheetValue = 9,
    /// At a place: node 0 holds something else than the place starts with.
    WrongStart = 10,
    /// At a node: it offers nothing.
    DeadEnd = 11,
    /// At a node: what it offers is not one whole choice set.
    TornChoice = 12,
    /// At node 0: it does not wait for the sources.
    BusyRoot = 13,
    /// At an arc: its transition takes more than its node holds.
    StarvedArc = 14,
    /// At an arc: its target does not hold what firing gives.
    WrongLanding = 15,
    /// At a node: nothing leads there from node 0.
    StrayNode = 16,
    /// At a node: no path leads from there to a node that waits.
    NoWayHome = 17,
    /// A single firing at a node that the sheet does not have.
    NoSuchNode = 18,
    /// The node has no arc for that transition; in a run, at a firing.
    NotOffered = 20,
    /// Under [`SCRATCH_BYTES`](crate::SCRATCH_BYTES) of scratch were lent.
    SmallScratch = 21,
    /// The short form does not fit into the buffer that was lent for it.
    SmallOut = 22,
    /// At a place: it starts above its capacity.
    OverfullStart = 26,
    /// At an arc: at its node there is no room for what its transition puts.
    OverCapacity = 27,
    /// The length of a net, a sheet or a record in bytes is no multiple of four.
    BrokenWord = 31,
}

impl Refusal {
    /// All of them, by rising number.
    #[rustfmt::skip]
    pub const ALL: [Refusal; 24] = [
        Refusal::RaggedNet, Refusal::NetSize, Refusal::NetOrder, Refusal::NetWeight, Refusal::NoSource, Refusal::RaggedSheet,
        Refusal::SheetSize, Refusal::SheetOrder, Refusal::SheetValue, Refusal::WrongStart, Refusal::DeadEnd, Refusal::TornChoice,
        Refusal::BusyRoot, Refusal::StarvedArc, Refusal::WrongLanding, Refusal::StrayNode, Refusal::NoWayHome, Refusal::NoSuchNode,
        Refusal::NotOffered, Refusal::SmallScratch, Refusal::SmallOut, Refusal::OverfullStart, Refusal::OverCapacity, Refusal::BrokenWord,
    ];

    /// The number by which the manual and the other tools know it.
    #[must_use]
    pub const fn number(self) -> u32 {
        self as u32
    }

    /// The refusal of a number, if these calls give it.
    ///
    /// ```
    /// use wulthrein::Refusal;
    /// assert_eq!(Refusal::from_number(15), Some(Refusal::WrongLanding));
    /// assert_eq!(Refusal::from_number(0), None);
    /// ```
    #[must_use]
    pub fn from_number(number: u32) -> Option<Refusal> {
        Refusal::ALL.into_iter().find(|refusal| refusal.number() == number)
    }

    /// The trade's name of it, as `wrong landing`.
    #[must_use]
    pub const fn name(self) -> &'static str {
        match self {
            Refusal::RaggedNet => "ragged net",
            Refusal::NetSize => "net size",
            Refusal::NetOrder => "net order",
            Refusal::NetWeight => "net weight",
            Refusal::NoSource => "no source",
            Refusal::RaggedSheet => "ragged sheet",
            Refusal::SheetSize => "sheet size",
            Refusal::SheetOrder => "sheet order",
            Refusal::SheetValue => "sheet value",
            Refusal::WrongStart => "wrong start",
            Refusal::DeadEnd => "dead end",
            Refusal::TornChoice => "torn choice",
            Refusal::BusyRoot => "busy root",
            Refusal::StarvedArc => "starved arc",
            Refusal::WrongLanding => "wrong landing",
            Refusal::StrayNode => "stray node",
            Refusal::NoWayHome => "no way home",
            Refusal::NoSuchNode => "no such node",
            Refusal::NotOffered => "not offered",
            Refusal::SmallScratch => "small scratch",
            Refusal::SmallOut => "small out",
            Refusal::OverfullStart => "overfull start",
            Refusal::OverCapacity => "over capacity",
            Refusal::BrokenWord => "broken word",
        }
    }

    const fn reason(self) -> &'static str {
        match self {
            Refusal::RaggedNet => "the net is shorter or longer than its words say",
            Refusal::NetSize => "the net has too few or too many places, transitions or entries",
            Refusal::NetOrder => "the key does not rise, or is no key of the net",
            Refusal::NetWeight => "the weight is 0 or too large",
            Refusal::NoSource => "every transition takes something",
            Refusal::RaggedSheet => "the sheet is shorter or longer than its words say",
            Refusal::SheetSize => "the sheet has too few or too many nodes or entries",
            Refusal::SheetOrder => "the key does not rise, or is no key of the sheet",
            Refusal::SheetValue => "the arc leads to no node, or the count is 0 or too large",
            Refusal::WrongStart => "node 0 holds something else than the place starts with",
            Refusal::DeadEnd => "the node offers nothing",
            Refusal::TornChoice => "what the node offers is not one whole choice set",
            Refusal::BusyRoot => "node 0 does not wait for the sources",
            Refusal::StarvedArc => "the transition takes more than the node holds",
            Refusal::WrongLanding => "the target does not hold what firing gives",
            Refusal::StrayNode => "nothing leads to the node from node 0",
            Refusal::NoWayHome => "no path leads from the node to one that waits",
            Refusal::NoSuchNode => "the sheet has fewer nodes",
            Refusal::NotOffered => "the node has no arc for the transition",
            Refusal::SmallScratch => "too few bytes of scratch were lent",
            Refusal::SmallOut => "the result does not fit into the buffer",
            Refusal::OverfullStart => "the place starts above its capacity",
            Refusal::OverCapacity => "there is no room for what the transition puts",
            Refusal::BrokenWord => "the length of an input in bytes is no multiple of four",
        }
    }
}

/// `15 wrong landing: the target does not hold what firing gives`
impl fmt::Display for Refusal {
    fn fmt(&self, f: &mut fmt::Formatter<'_>) -> fmt::Result {
        write!(f, "{} {}: {}", self.number(), self.name(), self.reason())
    }
}

/// Where a check failed, always counted from 0.
#[derive(Clone, Copy, Debug, PartialEq, Eq, PartialOrd, Ord, Hash)]
#[non_exhaustive]
pub enum Position {
    /// An entry of the net.
    NetEntry(u32),
    /// An entry of the sheet, which is an arc or a count.
    SheetEntry(u32),
    /// A place.
    Place(u32),
    /// A node.
    Node(u32),
    /// A firing of the record.
    Firing(usize),
}

/// `entry 3 of the sheet`
impl fmt::Display for Position {
    fn fmt(&self, f: &mut fmt::Formatter<'_>) -> fmt::Result {
        match self {
            Position::NetEntry(entry) => write!(f, "entry {entry} of the net"),
            Position::SheetEntry(entry) => write!(f, "entry {entry} of the sheet"),
            Position::Place(place) => write!(f, "place {place}"),
            Position::Node(node) => write!(f, "node {node}"),
            Position::Firing(index) => write!(f, "firing {index} of the record"),
        }
    }
}

/// A call's refusal: why, and where.
///
/// ```
/// use wulthrein::{check, Position, Refusal, SCRATCH_BYTES};
///
/// let net = [1, 1, 0].map(u32::to_le_bytes).concat(); // one place, one transition that takes and puts nothing
/// let sheet = [1, 0].map(u32::to_le_bytes).concat(); // one node without an arc
/// let refused = check(&net, &sheet, &mut [0; SCRATCH_BYTES]).unwrap_err();
/// assert_eq!(refused.refusal(), Refusal::DeadEnd);
/// assert_eq!(refused.position(), Some(Position::Node(0)));
/// assert_eq!(refused.to_string(), "refused by 11 dead end at node 0: the node offers nothing");
/// ```
#[derive(Clone, Copy, Debug, PartialEq, Eq, Hash)]
pub struct Refused {
    refusal: Refusal,
    position: Option<Position>,
}

impl Refused {
    /// Why.
    #[must_use]
    pub const fn refusal(&self) -> Refusal {
        self.refusal
    }

    /// Where, if the refusal is one of something counted. A [single firing](crate::fire) does not tell; [`check`](crate::check) does.
    #[must_use]
    pub const fn position(&self) -> Option<Position> {
        self.position
    }

    /// A refusal by the plain numbers of a reply.
    ///
    /// # Panics
    ///
    /// Where no call gives such numbers, so that the archive must be another.
    pub(crate) fn by_numbers(number: usize, kind: usize, index: usize) -> Refused {
        let Some(refusal) = Refusal::from_number(word(number)) else {
            panic!("libwulthrein.a answers {number}, which no call of this version does");
        };
        let position = match (kind, refusal) {
            (0, _) => None,
            (1, Refusal::NetOrder | Refusal::NetWeight) => Some(Position::NetEntry(word(index))),
            (1, _) => Some(Position::SheetEntry(word(index))),
            (2, _) => Some(Position::Place(word(index))),
            (3, _) => Some(Position::Node(word(index))),
            (4, _) => Some(Position::Firing(index)),
            _ => panic!("libwulthrein.a answers a position of kind {kind}, which no call of this version does"),
        };
        Refused { refusal, position }
    }
}

/// `refused by 15 wrong landing at entry 3 of the sheet: the target does not hold what firing gives`
impl fmt::Display for Refused {
    fn fmt(&self, f: &mut fmt::Formatter<'_>) -> fmt::Result {
        let Refused { refusal, position } = self;
        write!(f, "refused by {} {}", refusal.number(), refusal.name())?;
        if let Some(position) = position {
            write!(f, " at {position}")?;
        }
        write!(f, ": {}", refusal.reason())
    }
}

crate::is_an_error!(Refused);
