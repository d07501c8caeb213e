#![doc = include_str!("../README.md")]
#![no_std]
#![warn(missing_docs)]

#[cfg(feature = "alloc")]
extern crate alloc;
#[cfg(feature = "std")]
extern crate std;

mod buffer;
mod calls;
mod error;
mod ffi;
mod keyed;
mod misfit;
mod net;
mod record;
mod refusal;
mod sheet;

pub use buffer::Buffer;
#[cfg(feature = "alloc")]
pub use calls::short_form_to_vec;
pub use calls::{check, fire, run, short_form, Checked, Run};
pub use error::Error;
pub use misfit::Misfit;
pub use net::Net;
pub use record::Record;
pub use refusal::{Position, Refusal, Refused};
pub use sheet::Sheet;

/// The most places that a net can have.
pub const PLACES: u32 = 32;
/// The most transitions that a net can have.
pub const TRANSITIONS: u32 = 32;
/// The most nodes that a sheet can have.
pub const NODES: u32 = 128;
/// The most entries, which are arcs and counts, that a sheet can have.
pub const ENTRIES: u32 = 4096;
/// The greatest weight of a net and the greatest count of a sheet.
pub const COUNT: u32 = 1_000_000_000;

/// The bytes of scratch that a call asks for.
pub const SCRATCH_BYTES: usize = 32_768;
/// The bytes of the longest net that can be accepted: a buffer for any.
pub const NET_BYTES: usize = 16_908;
/// The bytes of the longest sheet that can be accepted: a buffer for any, and for every short form.
pub const SHEET_BYTES: usize = 32_776;

/// A number that is a word, as all are that no limit lets grow further.
fn word(number: usize) -> u32 {
    u32::try_from(number).unwrap_or(u32::MAX)
}

/// An error in the sense of `core` where the compiler has that, or else of `std`, with the feature of that name.
macro_rules! is_an_error {
    ($name:ty) => {
        #[cfg(core_error)]
        impl core::error::Error for $name {}
        #[cfg(all(feature = "std", not(core_error)))]
        impl std::error::Error for $name {}
    };
}
use is_an_error;
