//! The version of the library.

use crate::{copied, ffi, Error};

/// The version of the library that these types are for.
pub const VERSION: &str = "0.2.0";
/// The same as a number: 1,000,000 times the first of its numbers, plus 1,000 times the second, plus the third.
pub const VERSION_NUMBER: u32 = 2000;

/// Returns the version of the linked library.
pub fn version() -> String {
    // SAFETY: the buffer and the number are borrowed for the call.
    copied(|out, needed| unsafe { ffi::rinqebo_version(out.as_mut_ptr(), out.len(), needed) }).unwrap_or_default()
}

/// Returns the version of the linked library as a number.
pub fn version_number() -> u32 {
    // SAFETY: it takes nothing.
    unsafe { ffi::rinqebo_version_number() }
}

/// Whether the linked library is the one that these types are for.
pub(crate) fn check_version() -> Result<(), Error> {
    match version_number() {
        VERSION_NUMBER => Ok(()),
        _ => Err(Error::Version(version())),
    }
}
