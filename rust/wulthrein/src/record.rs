//! A record of firings.

use crate::keyed::put;
use crate::{Buffer, Misfit};
#[cfg(feature = "alloc")]
use alloc::vec::Vec;

/// The transitions of a [`run`](crate::run) as bytes, in the order of their firing. Any number may be pushed; whether it is a transition,
/// and offered, is the run's answer.
///
/// ```
/// # fn main() -> Result<(), wulthrein::Misfit> {
/// let mut record = wulthrein::Record::within([0; 64]);
/// record.push(0)?.push(1)?;
/// assert_eq!(record.as_ref(), [0, 0, 0, 0, 1, 0, 0, 0]);
/// # Ok(())
/// # }
/// ```
#[derive(Clone, Debug, Default)]
pub struct Record<B> {
    buffer: B,
    firings: usize,
}

#[cfg(feature = "alloc")]
impl Record<Vec<u8>> {
    /// An empty record, in a `Vec`. A record can be collected from an iterator as well, and extended by one.
    #[must_use]
    pub fn new() -> Self {
        Record::default()
    }
}

impl<B: Buffer> Record<B> {
    /// An empty record, to be written to the front of a buffer, with four bytes for each firing.
    pub fn within(buffer: B) -> Self {
        Record { buffer, firings: 0 }
    }

    /// How many firings there are.
    #[must_use]
    pub fn len(&self) -> usize {
        self.firings
    }

    /// Whether there is none.
    #[must_use]
    pub fn is_empty(&self) -> bool {
        self.firings == 0
    }

    /// Adds a firing at the end.
    ///
    /// # Errors
    ///
    /// Where the buffer is full.
    pub fn push(&mut self, transition: u32) -> Result<&mut Self, Misfit> {
        let bytes = self.buffer.room(4 * (self.firings + 1)).ok_or(Misfit::NoRoom)?;
        put(bytes, self.firings, transition);
        self.firings += 1;
        Ok(self)
    }

    /// Takes all firings out.
    pub fn clear(&mut self) {
        self.firings = 0;
    }
}

impl<B: Buffer> AsRef<[u8]> for Record<B> {
    fn as_ref(&self) -> &[u8] {
        &self.buffer.bytes()[..4 * self.firings]
    }
}

#[cfg(feature = "alloc")]
impl Extend<u32> for Record<Vec<u8>> {
    fn extend<I: IntoIterator<Item = u32>>(&mut self, transitions: I) {
        self.buffer.truncate(4 * self.firings);
        self.buffer.extend(transitions.into_iter().flat_map(u32::to_le_bytes));
        self.firings = self.buffer.len() / 4;
    }
}

#[cfg(feature = "alloc")]
impl FromIterator<u32> for Record<Vec<u8>> {
    fn from_iter<I: IntoIterator<Item = u32>>(transitions: I) -> Self {
        let mut record = Record::new();
        record.extend(transitions);
        record
    }
}
