//! The four calls and what they answer.

use crate::ffi::{self, Reply};
use crate::refusal::Refused;
use crate::{word, PLACES};
#[cfg(feature = "alloc")]
use alloc::vec::Vec;
use core::fmt;

/// What [`check`] tells of a sheet that it accepts.
#[derive(Clone, Copy, Debug, PartialEq, Eq, Hash)]
#[non_exhaustive]
pub struct Checked {
    /// How many nodes the sheet has.
    pub nodes: u32,
    /// How many arcs.
    pub arcs: u32,
    /// How many of the nodes wait for the sources.
    pub awaits: u32,
}

/// What [`run`] tells of a record that could be followed to its end.
#[derive(Clone, Copy, PartialEq, Eq, Hash)]
#[non_exhaustive]
pub struct Run {
    /// How many transitions were fired: all of the record.
    pub fired: usize,
    /// The node at the end.
    pub node: u32,
    /// The sheet's entry of the last arc, or nothing where nothing was fired.
    pub entry: Option<u32>,
    counts: [u32; PLACES as usize],
    places: usize,
}

impl Run {
    /// What each place holds at the end, one count for each place of the net.
    #[must_use]
    pub fn counts(&self) -> &[u32] {
        &self.counts[..self.places]
    }
}

impl fmt::Debug for Run {
    fn fmt(&self, f: &mut fmt::Formatter<'_>) -> fmt::Result {
        let Run { fired, node, entry, .. } = self;
        let mut told = f.debug_struct("Run");
        told.field("fired", fired).field("node", node).field("entry", entry);
        told.field("counts", &self.counts()).finish()
    }
}

/// Checks a sheet against a net.
///
/// # Errors
///
/// The first check that fails, of the net, then of the sheet: any [`Refusal`](crate::Refusal) but `NoSuchNode`, `NotOffered` and
/// `SmallOut`.
///
/// ```
/// # fn main() -> Result<(), wulthrein::Error> {
/// use wulthrein::{check, Net, Refusal, Sheet, SCRATCH_BYTES};
///
/// let mut net = Net::within([0; 64], 1, 2)?;
/// net.puts(0, 0, 1)?.takes(1, 0, 1)?;
/// let mut sheet = Sheet::within([0; 64], &net, 2)?;
/// sheet.arc(0, 0, 1)?.arc(1, 1, 0)?;
///
/// let mut scratch = [0; SCRATCH_BYTES];
/// let refused = check(&net, &sheet, &mut scratch).unwrap_err();
/// assert_eq!(refused.refusal(), Refusal::WrongLanding); // transition 0 puts one, and node 1 holds nothing
///
/// sheet.count(1, 0, 1)?;
/// let checked = check(&net, &sheet, &mut scratch)?;
/// assert_eq!((checked.nodes, checked.arcs, checked.awaits), (2, 2, 1));
/// # Ok(())
/// # }
/// ```
pub fn check(
    net: impl AsRef<[u8]>,
    sheet: impl AsRef<[u8]>,
    scratch: &mut [u8],
) -> Result<Checked, Refused> {
    let [nodes, arcs, awaits] = accepted(&ffi::check(net.as_ref(), sheet.as_ref(), scratch))?;
    Ok(Checked { nodes: word(nodes), arcs: word(arcs), awaits: word(awaits) })
}

/// Fires the transitions of a record one after the other, from node 0.
///
/// # Errors
///
/// Those of [`check`], and then `NotOffered` at the first firing that the sheet does not offer.
///
/// ```
/// # fn main() -> Result<(), wulthrein::Error> {
/// use wulthrein::{run, Net, Position, Record, Sheet, SCRATCH_BYTES};
///
/// let mut net = Net::within([0; 64], 1, 2)?;
/// net.puts(0, 0, 1)?.takes(1, 0, 1)?;
/// let mut sheet = Sheet::within([0; 64], &net, 2)?;
/// sheet.arc(0, 0, 1)?.arc(1, 1, 0)?.count(1, 0, 1)?;
/// let mut record = Record::within([0; 64]);
/// record.push(0)?.push(1)?.push(0)?;
///
/// let mut scratch = [0; SCRATCH_BYTES];
/// let ran = run(&net, &sheet, &record, &mut scratch)?;
/// assert_eq!((ran.fired, ran.node, ran.counts()), (3, 1, &[1][..]));
///
/// record.push(0)?; // node 1 drains, it does not fill
/// let refused = run(&net, &sheet, &record, &mut scratch).unwrap_err();
/// assert_eq!(refused.position(), Some(Position::Firing(3)));
/// # Ok(())
/// # }
/// ```
pub fn run(
    net: impl AsRef<[u8]>,
    sheet: impl AsRef<[u8]>,
    record: impl AsRef<[u8]>,
    scratch: &mut [u8],
) -> Result<Run, Refused> {
    let net = net.as_ref();
    let mut out = [0; 4 * PLACES as usize];
    let [fired, node, entry] =
        accepted(&ffi::run(net, sheet.as_ref(), record.as_ref(), &mut out, scratch))?;
    let mut counts = [0; PLACES as usize];
    for (count, bytes) in counts.iter_mut().zip(out.chunks_exact(4)) {
        *count = bytes.iter().rev().fold(0, |count, &byte| count << 8 | u32::from(byte));
    }
    // of an accepted net the first word is how many places there are, 32 at the most
    let places = net.first().map_or(0, |&places| usize::from(places).min(counts.len()));
    Ok(Run { fired, node: word(node), entry: entry.checked_sub(1).map(word), counts, places })
}

/// Writes the short form of a sheet to the front of a buffer, and hands back that front.
///
/// The short form is the smallest sheet that allows the same lists of firings. Two sheets of one net have the same short form, byte
/// for byte, exactly if they allow the same lists: to compare two sheets, compare these. It is accepted itself, and is its own short
/// form.
///
/// # Errors
///
/// Those of [`check`], and `SmallOut` where the buffer is too short; one of [`SHEET_BYTES`](crate::SHEET_BYTES) never is. What is
/// refused leaves the buffer as it was.
///
/// ```
/// # fn main() -> Result<(), wulthrein::Error> {
/// use wulthrein::{short_form, Net, Sheet, SCRATCH_BYTES, SHEET_BYTES};
///
/// let mut net = Net::within([0; 64], 1, 2)?;
/// net.puts(0, 0, 1)?.takes(1, 0, 1)?;
/// let mut once = Sheet::within([0; 64], &net, 2)?; // fill, drain
/// once.arc(0, 0, 1)?.arc(1, 1, 0)?.count(1, 0, 1)?;
/// let mut twice = Sheet::within([0; 64], &net, 4)?; // fill, drain, fill, drain
/// twice.arc(0, 0, 1)?.arc(1, 1, 2)?.arc(2, 0, 3)?.arc(3, 1, 0)?.count(1, 0, 1)?.count(3, 0, 1)?;
///
/// let (mut out, mut scratch) = ([0; SHEET_BYTES], [0; SCRATCH_BYTES]);
/// let form = short_form(&net, &twice, &mut out, &mut scratch)?;
/// assert_eq!(form, once.as_ref());
/// # Ok(())
/// # }
/// ```
pub fn short_form<'a>(
    net: impl AsRef<[u8]>,
    sheet: impl AsRef<[u8]>,
    out: &'a mut [u8],
    scratch: &mut [u8],
) -> Result<&'a [u8], Refused> {
    let [words, ..] = accepted(&ffi::short_form(net.as_ref(), sheet.as_ref(), out, scratch))?;
    Ok(&out[..4 * words])
}

/// The [`short_form`] of a sheet, in a `Vec` of its length.
///
/// # Errors
///
/// Those of [`check`].
///
/// ```
/// # fn main() -> Result<(), wulthrein::Error> {
/// use wulthrein::{short_form_to_vec, Net, Sheet, SCRATCH_BYTES};
///
/// let net = Net::new(1, 1)?; // its one transition takes and puts nothing
/// let mut sheet = Sheet::new(&net, 1)?;
/// sheet.arc(0, 0, 0)?;
/// let form = short_form_to_vec(&net, &sheet, &mut vec![0; SCRATCH_BYTES])?;
/// assert_eq!(form, sheet.as_ref());
/// # Ok(())
/// # }
/// ```
#[cfg(feature = "alloc")]
pub fn short_form_to_vec(
    net: impl AsRef<[u8]>,
    sheet: impl AsRef<[u8]>,
    scratch: &mut [u8],
) -> Result<Vec<u8>, Refused> {
    let mut out = alloc::vec![0; crate::SHEET_BYTES];
    short_form(net, sheet, &mut out, scratch).map(<[u8]>::to_vec)
}

/// Fires one transition at a node, from the counts that the sheet gives the node, and tells the next node.
///
/// Net and sheet are checked each time, so that the answer is one about the bytes as they are.
///
/// # Errors
///
/// Those of [`check`], without their positions; `NoSuchNode`, `NotOffered`.
///
/// ```
/// # fn main() -> Result<(), wulthrein::Error> {
/// use wulthrein::{fire, Net, Refusal, Sheet, SCRATCH_BYTES};
///
/// let mut net = Net::within([0; 64], 1, 2)?;
/// net.puts(0, 0, 1)?.takes(1, 0, 1)?;
/// let mut sheet = Sheet::within([0; 64], &net, 2)?;
/// sheet.arc(0, 0, 1)?.arc(1, 1, 0)?.count(1, 0, 1)?;
///
/// let mut scratch = [0; SCRATCH_BYTES];
/// assert_eq!(fire(&net, &sheet, 0, 0, &mut scratch)?, 1);
/// assert_eq!(fire(&net, &sheet, 1, 1, &mut scratch)?, 0);
/// assert_eq!(fire(&net, &sheet, 1, 0, &mut scratch).unwrap_err().refusal(), Refusal::NotOffered);
/// assert_eq!(fire(&net, &sheet, 2, 0, &mut scratch).unwrap_err().refusal(), Refusal::NoSuchNode);
/// # Ok(())
/// # }
/// ```
pub fn fire(
    net: impl AsRef<[u8]>,
    sheet: impl AsRef<[u8]>,
    node: u32,
    transition: u32,
    scratch: &mut [u8],
) -> Result<u32, Refused> {
    let fired = ffi::fire(net.as_ref(), sheet.as_ref(), node, transition, scratch);
    match fired.checked_sub(ffi::REFUSED) {
        None => Ok(fired),
        Some(number) => Err(Refused::by_numbers(number as usize, 0, 0)),
    }
}

/// A reply's own numbers, if it accepts.
fn accepted(reply: &Reply) -> Result<[usize; 3], Refused> {
    match reply.numbers() {
        [0, _, _, a, b, c] => Ok([a, b, c]),
        [number, kind, index, ..] => Err(Refused::by_numbers(number, kind, index)),
    }
}
