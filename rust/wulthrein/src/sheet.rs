//! A sheet, written entry by entry.

use crate::keyed::Keyed;
use crate::{Buffer, Misfit, Net, COUNT, ENTRIES, NODES};
#[cfg(feature = "alloc")]
use alloc::vec::Vec;

/// A sheet as bytes: the nodes, by which transition each leads to which other, and what the places hold at each.
///
/// Entries come in any order. One that is written again takes the place of the earlier. Nothing is judged here:
/// [`check`](crate::check) tells whether it is a schedule of its net.
///
/// ```
/// # fn main() -> Result<(), wulthrein::Misfit> {
/// use wulthrein::{Net, Sheet};
///
/// let net = Net::within([0; 64], 1, 2)?; // one place, two transitions
/// let mut sheet = Sheet::within([0; 64], &net, 2)?; // two nodes
/// sheet.arc(0, 0, 1)?.arc(1, 1, 0)?.count(1, 0, 7)?;
/// let words = [2, 3, 0, 3, 5, 1, 0, 7u32];
/// assert_eq!(sheet.as_ref(), words.map(u32::to_le_bytes).concat());
/// # Ok(())
/// # }
/// ```
#[derive(Clone, Debug)]
pub struct Sheet<B> {
    words: Keyed<B>,
    nodes: u32,
    places: u32,
    transitions: u32,
}

#[cfg(feature = "alloc")]
impl Sheet<Vec<u8>> {
    /// A sheet of a net, without arcs and counts, in a `Vec`.
    ///
    /// # Errors
    ///
    /// Where there are no nodes, or too many.
    pub fn new<N: Buffer>(net: &Net<N>, nodes: u32) -> Result<Self, Misfit> {
        Sheet::within(Vec::new(), net, nodes)
    }
}

impl<B: Buffer> Sheet<B> {
    /// A sheet of a net, without arcs and counts, written to the front of a buffer. One of [`SHEET_BYTES`](crate::SHEET_BYTES) has room
    /// for any sheet.
    ///
    /// # Errors
    ///
    /// Where there are no nodes, or too many, or where the buffer is too short.
    pub fn within<N: Buffer>(buffer: B, net: &Net<N>, nodes: u32) -> Result<Self, Misfit> {
        if !(1..=NODES).contains(&nodes) {
            return Err(Misfit::Nodes(nodes));
        }
        let words = Keyed::new(buffer, &[nodes])?;
        Ok(Sheet { words, nodes, places: net.places(), transitions: net.transitions() })
    }

    /// How many nodes there are.
    #[must_use]
    pub fn nodes(&self) -> u32 {
        self.nodes
    }

    /// From a node, a transition leads to a target.
    ///
    /// # Errors
    ///
    /// See [`Misfit`].
    pub fn arc(&mut self, node: u32, transition: u32, target: u32) -> Result<&mut Self, Misfit> {
        self.known(target)?;
        if transition >= self.transitions {
            return Err(Misfit::NoSuchTransition(transition));
        }
        let key = self.known(node)? * self.transitions + transition;
        self.write(key, target)
    }

    /// At a node, a place holds so many; 0 takes the entry out, for what is not written is 0.
    ///
    /// # Errors
    ///
    /// See [`Misfit`].
    pub fn count(&mut self, node: u32, place: u32, count: u32) -> Result<&mut Self, Misfit> {
        if place >= self.places {
            return Err(Misfit::NoSuchPlace(place));
        }
        if count > COUNT {
            return Err(Misfit::TooLarge(count));
        }
        let key = self.nodes * self.transitions + self.known(node)? * self.places + place;
        if count == 0 {
            self.words.remove(key);
            return Ok(self);
        }
        self.write(key, count)
    }

    fn known(&self, node: u32) -> Result<u32, Misfit> {
        if node < self.nodes {
            Ok(node)
        } else {
            Err(Misfit::NoSuchNode(node))
        }
    }

    fn write(&mut self, key: u32, value: u32) -> Result<&mut Self, Misfit> {
        if self.words.entries() == ENTRIES as usize && self.words.find(key).is_err() {
            return Err(Misfit::TooManyEntries);
        }
        self.words.set(key, value)?;
        Ok(self)
    }
}

impl<B: Buffer> AsRef<[u8]> for Sheet<B> {
    fn as_ref(&self) -> &[u8] {
        self.words.bytes()
    }
}
