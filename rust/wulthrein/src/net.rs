//! A net, written entry by entry.

use crate::keyed::Keyed;
use crate::{Buffer, Misfit, COUNT, PLACES, TRANSITIONS};
#[cfg(feature = "alloc")]
use alloc::vec::Vec;

/// A net as bytes: what each transition takes from each place and puts there, what the places start with and what they can hold.
///
/// Entries come in any order. One that is written again takes the place of the earlier, and 0 takes it out: what is not written is 0.
/// The bytes are those of a net after each entry; [`as_ref`](AsRef::as_ref) lends them.
///
/// ```
/// # fn main() -> Result<(), wulthrein::Misfit> {
/// let mut net = wulthrein::Net::within([0; 64], 1, 2)?; // one place, two transitions
/// net.puts(0, 0, 1)?.takes(1, 0, 1)?.capacity(0, 5)?;
/// let words = [1, 2, 3, 1, 2, 5, 1, 1, 5u32];
/// assert_eq!(net.as_ref(), words.map(u32::to_le_bytes).concat());
/// # Ok(())
/// # }
/// ```
#[derive(Clone, Debug)]
pub struct Net<B> {
    words: Keyed<B>,
    places: u32,
    transitions: u32,
}

#[cfg(feature = "alloc")]
impl Net<Vec<u8>> {
    /// A net without entries, in a `Vec`.
    ///
    /// # Errors
    ///
    /// Where there are no places or transitions, or too many.
    pub fn new(places: u32, transitions: u32) -> Result<Self, Misfit> {
        Net::within(Vec::new(), places, transitions)
    }
}

impl<B: Buffer> Net<B> {
    /// A net without entries, written to the front of a buffer. One of [`NET_BYTES`](crate::NET_BYTES) has room for any net.
    ///
    /// # Errors
    ///
    /// Where there are no places or transitions, or too many, or where the buffer is too short.
    pub fn within(buffer: B, places: u32, transitions: u32) -> Result<Self, Misfit> {
        if !(1..=PLACES).contains(&places) {
            return Err(Misfit::Places(places));
        }
        if !(1..=TRANSITIONS).contains(&transitions) {
            return Err(Misfit::Transitions(transitions));
        }
        Ok(Net { words: Keyed::new(buffer, &[places, transitions])?, places, transitions })
    }

    /// How many places there are.
    #[must_use]
    pub fn places(&self) -> u32 {
        self.places
    }

    /// How many transitions there are.
    #[must_use]
    pub fn transitions(&self) -> u32 {
        self.transitions
    }

    /// What a transition takes from a place.
    ///
    /// # Errors
    ///
    /// See [`Misfit`].
    pub fn takes(&mut self, transition: u32, place: u32, weight: u32) -> Result<&mut Self, Misfit> {
        let row = self.known(transition)?;
        self.write(row, place, weight)
    }

    /// What a transition puts into a place.
    ///
    /// # Errors
    ///
    /// See [`Misfit`].
    pub fn puts(&mut self, transition: u32, place: u32, weight: u32) -> Result<&mut Self, Misfit> {
        let row = self.transitions + self.known(transition)?;
        self.write(row, place, weight)
    }

    /// What a place starts with.
    ///
    /// # Errors
    ///
    /// See [`Misfit`].
    pub fn starts(&mut self, place: u32, count: u32) -> Result<&mut Self, Misfit> {
        self.write(2 * self.transitions, place, count)
    }

    /// The most that a place can hold. Where this is not said, it can hold any number.
    ///
    /// # Errors
    ///
    /// See [`Misfit`]. No capacity is 0: without its entry the place could hold any number.
    pub fn capacity(&mut self, place: u32, most: u32) -> Result<&mut Self, Misfit> {
        if most == 0 {
            return Err(Misfit::NoCapacity);
        }
        self.write(2 * self.transitions + 1, place, most)
    }

    /// Takes out what was said of a place's capacity, so that it can hold any number.
    ///
    /// # Errors
    ///
    /// See [`Misfit`].
    pub fn unbounded(&mut self, place: u32) -> Result<&mut Self, Misfit> {
        self.write(2 * self.transitions + 1, place, 0)
    }

    fn known(&self, transition: u32) -> Result<u32, Misfit> {
        if transition < self.transitions {
            Ok(transition)
        } else {
            Err(Misfit::NoSuchTransition(transition))
        }
    }

    /// An entry of a row of keys: a row has one for each place.
    fn write(&mut self, row: u32, place: u32, weight: u32) -> Result<&mut Self, Misfit> {
        if place >= self.places {
            return Err(Misfit::NoSuchPlace(place));
        }
        if weight > COUNT {
            return Err(Misfit::TooLarge(weight));
        }
        let key = row * self.places + place;
        if weight == 0 {
            self.words.remove(key);
        } else {
            self.words.set(key, weight)?;
        }
        Ok(self)
    }
}

impl<B: Buffer> AsRef<[u8]> for Net<B> {
    fn as_ref(&self) -> &[u8] {
        self.words.bytes()
    }
}
