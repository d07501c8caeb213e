//! Where a net, a sheet or a record is written.

#[cfg(feature = "alloc")]
use alloc::vec::Vec;
use sealed::Sealed;

mod sealed {
    pub trait Sealed {}
    impl Sealed for [u8] {}
    impl<const N: usize> Sealed for [u8; N] {}
    impl<S: Sealed + ?Sized> Sealed for &mut S {}
    #[cfg(feature = "alloc")]
    impl Sealed for alloc::vec::Vec<u8> {}
}

/// Bytes to write words into: an array, a slice or an array that is borrowed, or with the feature `alloc` a `Vec`, which grows. No other
/// type can be one.
pub trait Buffer: Sealed {
    /// The bytes that are there.
    fn bytes(&self) -> &[u8];

    /// At least so many bytes, with those that were there unchanged in front; or nothing, where there is no room for so many.
    fn room(&mut self, length: usize) -> Option<&mut [u8]>;
}

impl Buffer for [u8] {
    fn bytes(&self) -> &[u8] {
        self
    }

    fn room(&mut self, length: usize) -> Option<&mut [u8]> {
        (self.len() >= length).then_some(self)
    }
}

impl<const N: usize> Buffer for [u8; N] {
    fn bytes(&self) -> &[u8] {
        self
    }

    fn room(&mut self, length: usize) -> Option<&mut [u8]> {
        self.as_mut_slice().room(length)
    }
}

impl<B: Buffer + ?Sized> Buffer for &mut B {
    fn bytes(&self) -> &[u8] {
        (**self).bytes()
    }

    fn room(&mut self, length: usize) -> Option<&mut [u8]> {
        (**self).room(length)
    }
}

#[cfg(feature = "alloc")]
impl Buffer for Vec<u8> {
    fn bytes(&self) -> &[u8] {
        self
    }

    fn room(&mut self, length: usize) -> Option<&mut [u8]> {
        if self.len() < length {
            self.resize(length, 0);
        }
        Some(self)
    }
}
