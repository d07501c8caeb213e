//! Either of the errors that there are.

use crate::{Misfit, Refused};
use core::fmt;

/// A [`Misfit`] or a [`Refused`], for a function that builds nets or sheets and calls with them too. `?` makes it of either.
#[derive(Clone, Copy, Debug, PartialEq, Eq, Hash)]
pub enum Error {
    /// Something could not be written.
    Misfit(Misfit),
    /// A call refused.
    Refused(Refused),
}

impl From<Misfit> for Error {
    fn from(misfit: Misfit) -> Error {
        Error::Misfit(misfit)
    }
}

impl From<Refused> for Error {
    fn from(refused: Refused) -> Error {
        Error::Refused(refused)
    }
}

impl fmt::Display for Error {
    fn fmt(&self, f: &mut fmt::Formatter<'_>) -> fmt::Result {
        match self {
            Error::Misfit(misfit) => misfit.fmt(f),
            Error::Refused(refused) => refused.fmt(f),
        }
    }
}

crate::is_an_error!(Error);
