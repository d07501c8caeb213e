//! Words with keyed entries, as nets and sheets have them: a head that ends with how many entries there are, their keys in rising
//! order, and after all keys their values. They are whole words after each change.

use crate::{Buffer, Misfit};
use core::cmp::Ordering;
use core::ops::Range;

/// Keyed words in a buffer.
#[derive(Clone, Debug)]
pub(crate) struct Keyed<B> {
    buffer: B,
    /// Words before the keys.
    head: usize,
    entries: usize,
}

impl<B: Buffer> Keyed<B> {
    /// Writes a head without entries: these numbers, and 0.
    pub(crate) fn new(mut buffer: B, numbers: &[u32]) -> Result<Self, Misfit> {
        let head = numbers.len() + 1;
        let bytes = buffer.room(4 * head).ok_or(Misfit::NoRoom)?;
        for (at, &number) in numbers.iter().enumerate() {
            put(bytes, at, number);
        }
        put(bytes, head - 1, 0);
        Ok(Keyed { buffer, head, entries: 0 })
    }

    pub(crate) fn bytes(&self) -> &[u8] {
        &self.buffer.bytes()[..4 * (self.head + 2 * self.entries)]
    }

    pub(crate) fn entries(&self) -> usize {
        self.entries
    }

    /// Where the key stands among the keys, or where it would stand.
    pub(crate) fn find(&self, key: u32) -> Result<usize, usize> {
        let (mut low, mut high) = (0, self.entries);
        while low < high {
            let middle = (low + high) / 2;
            match get(self.buffer.bytes(), self.head + middle).cmp(&key) {
                Ordering::Less => low = middle + 1,
                Ordering::Equal => return Ok(middle),
                Ordering::Greater => high = middle,
            }
        }
        Err(low)
    }

    /// Gives a key a value, in place of the one that it had.
    pub(crate) fn set(&mut self, key: u32, value: u32) -> Result<(), Misfit> {
        let at = match self.find(key) {
            Ok(at) => at,
            Err(at) => self.insert(at, key)?,
        };
        let values = self.head + self.entries;
        put(self.written(), values + at, value);
        Ok(())
    }

    /// Takes a key out, if it is there.
    pub(crate) fn remove(&mut self, key: u32) {
        let (keys, values, end) =
            (self.head, self.head + self.entries, self.head + 2 * self.entries);
        if let Ok(at) = self.find(key) {
            let bytes = self.written();
            shift(bytes, keys + at + 1..values + at, keys + at);
            shift(bytes, values + at + 1..end, values + at - 1);
            self.count(self.entries - 1);
        }
    }

    /// Makes room for an entry: behind its key all moves by a word, and behind its value by two.
    fn insert(&mut self, at: usize, key: u32) -> Result<usize, Misfit> {
        let (keys, values, end) =
            (self.head, self.head + self.entries, self.head + 2 * self.entries);
        let bytes = self.buffer.room(4 * (end + 2)).ok_or(Misfit::NoRoom)?;
        shift(bytes, values + at..end, values + at + 2);
        shift(bytes, keys + at..values + at, keys + at + 1);
        put(bytes, keys + at, key);
        self.count(self.entries + 1);
        Ok(at)
    }

    fn count(&mut self, entries: usize) {
        self.entries = entries;
        let at = self.head - 1;
        put(self.written(), at, u32::try_from(entries).unwrap_or(u32::MAX));
    }

    fn written(&mut self) -> &mut [u8] {
        self.buffer.room(4 * (self.head + 2 * self.entries)).unwrap_or_default()
    }
}

fn get(bytes: &[u8], word: usize) -> u32 {
    bytes[4 * word..4 * word + 4]
        .iter()
        .rev()
        .fold(0, |number, &byte| number << 8 | u32::from(byte))
}

pub(crate) fn put(bytes: &mut [u8], word: usize, number: u32) {
    bytes[4 * word..4 * word + 4].copy_from_slice(&number.to_le_bytes());
}

fn shift(bytes: &mut [u8], words: Range<usize>, to: usize) {
    bytes.copy_within(4 * words.start..4 * words.end, 4 * to);
}
