//! Why a call fails.

use crate::document::Refusal;
use std::fmt;

/// Why a call fails, with the message of the library if it has one.
#[derive(Clone, Debug, PartialEq, Eq)]
#[non_exhaustive]
pub enum Error {
    /// The configuration is refused.
    Refused(Refusal),
    /// The request is not of its form.
    NotUnderstood(String),
    /// The metadata, a machine or the list of tests of the request is not understood.
    NoEngines(String),
    /// There is no such profile.
    NoProfile(Refusal),
    /// Memory was refused.
    Memory,
    /// The request is not valid UTF-8.
    NotText,
    /// A filter of the profile uses a part of the test that is empty.
    NotKnown,
    /// The linked library has this version, and not [`crate::VERSION`].
    Version(String),
    /// The output of the library is not understood.
    Unreadable(String),
    /// A status that this version does not know.
    Unknown(u32),
}

impl Error {
    /// The error of output that is not of its form.
    pub(crate) fn unreadable(error: serde_json::Error) -> Error {
        Error::Unreadable(error.to_string())
    }

    /// The error of a status, with its reason.
    pub(crate) fn of(status: u32, reason: String) -> Error {
        match status {
            1 => Error::Refused(Refusal::of(reason)),
            3 => Error::NotText,
            4 => Error::Memory,
            5 => Error::NotUnderstood(reason),
            6 => Error::NoEngines(reason),
            7 => Error::NoProfile(Refusal::of(reason)),
            11 => Error::NotKnown,
            other => Error::Unknown(other),
        }
    }
}

impl fmt::Display for Error {
    fn fmt(&self, f: &mut fmt::Formatter<'_>) -> fmt::Result {
        match self {
            Error::Refused(refusal) => write!(f, "the configuration is refused: {}", refusal.reason),
            Error::NotUnderstood(reason) => write!(f, "the request is not understood: {reason}"),
            Error::NoEngines(reason) => write!(f, "metadata, machines or tests are not understood: {reason}"),
            Error::NoProfile(refusal) => f.write_str(&refusal.reason),
            Error::NotText => f.write_str("the request is not valid UTF-8"),
            Error::Memory => f.write_str("out of memory"),
            Error::NotKnown => f.write_str("a filter of the profile uses a part of the test that is empty"),
            Error::Version(version) => {
                write!(f, "the library has version {version}, and not {}", crate::VERSION)
            }
            Error::Unreadable(reason) => write!(f, "the output of the library is not understood: {reason}"),
            Error::Unknown(status) => write!(f, "status {status}"),
        }
    }
}

impl std::error::Error for Error {}
