//! Memory for a value of the library, at an address that does not change.

use crate::Error;
use std::alloc::{alloc, dealloc, Layout};
use std::ptr::NonNull;

/// The alignment that the library requires.
const ALIGNMENT: usize = 16;

/// Memory that is freed when it is dropped. The value in it is not freed.
pub struct Room {
    at: NonNull<u8>,
    layout: Layout,
}

impl Room {
    /// Allocates so many bytes, uninitialized.
    pub fn new(size: usize) -> Result<Room, Error> {
        let layout = Layout::from_size_align(size.max(1), ALIGNMENT).map_err(|_| Error::Memory)?;
        // SAFETY: the size is not 0.
        let at = NonNull::new(unsafe { alloc(layout) }).ok_or(Error::Memory)?;
        Ok(Room { at, layout })
    }

    pub fn as_ptr(&self) -> *mut u8 {
        self.at.as_ptr()
    }
}

impl Drop for Room {
    fn drop(&mut self) {
        // SAFETY: it was allocated with this layout, and is freed once.
        unsafe { dealloc(self.at.as_ptr(), self.layout) }
    }
}
