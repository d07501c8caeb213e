//! What cannot be written into a net, a sheet or a record.

use core::fmt;

/// Why something cannot be written into a [`Net`](crate::Net), a [`Sheet`](crate::Sheet) or a [`Record`](crate::Record). What was written
/// before stays as it was.
#[derive(Clone, Copy, Debug, PartialEq, Eq, Hash)]
#[non_exhaustive]
pub enum Misfit {
    /// No net has so many places, or none at all.
    Places(u32),
    /// No net has so many transitions, or none at all.
    Transitions(u32),
    /// No sheet has so many nodes, or none at all.
    Nodes(u32),
    /// The net has no such place.
    NoSuchPlace(u32),
    /// The net has no such transition.
    NoSuchTransition(u32),
    /// The sheet has no such node.
    NoSuchNode(u32),
    /// No weight and no count is so large.
    TooLarge(u32),
    /// No capacity is 0.
    NoCapacity,
    /// The sheet has as many entries already as any may have.
    TooManyEntries,
    /// The buffer is full.
    NoRoom,
}

impl fmt::Display for Misfit {
    fn fmt(&self, f: &mut fmt::Formatter<'_>) -> fmt::Result {
        match self {
            Misfit::Places(count) => {
                write!(f, "a net has 1 to {} places, not {count}", crate::PLACES)
            }
            Misfit::Transitions(count) => {
                write!(f, "a net has 1 to {} transitions, not {count}", crate::TRANSITIONS)
            }
            Misfit::Nodes(count) => {
                write!(f, "a sheet has 1 to {} nodes, not {count}", crate::NODES)
            }
            Misfit::NoSuchPlace(place) => write!(f, "the net has no place {place}"),
            Misfit::NoSuchTransition(transition) => {
                write!(f, "the net has no transition {transition}")
            }
            Misfit::NoSuchNode(node) => write!(f, "the sheet has no node {node}"),
            Misfit::TooLarge(number) => write!(f, "{number} is more than {}", crate::COUNT),
            Misfit::NoCapacity => write!(f, "a capacity is never 0"),
            Misfit::TooManyEntries => write!(f, "a sheet has at most {} entries", crate::ENTRIES),
            Misfit::NoRoom => write!(f, "the buffer has no room for it"),
        }
    }
}

crate::is_an_error!(Misfit);
