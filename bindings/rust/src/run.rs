//! One call for a whole run, and the runs that the library keeps.

use crate::document::{Document, Refusal};
use crate::room::Room;
use crate::version::check_version;
use crate::{ffi, json_of, Error, Mode, Sources, DONE};
use serde::de::DeserializeOwned;
use serde::Serialize;

/// A request for a run: all settings that a profile gives to each test of a list.
#[derive(Clone, Copy, Debug, Serialize)]
pub struct RunRequest<'a> {
    #[serde(flatten)]
    pub sources: &'a Sources,
    /// The name of the profile.
    pub profile: &'a str,
    pub mode: Mode,
    /// The output of `cargo nextest list --message-format json`.
    pub list: &'a str,
}

/// Returns the document of a run: the settings of each test of the list, with their origins.
pub fn resolve(request: &RunRequest<'_>) -> Result<Document, Error> {
    resolve_json(&json_of(request)?)
}

/// Returns the document of a run, for a request in JSON, which `docs/LIBRARY.md` describes.
pub fn resolve_json(request: &[u8]) -> Result<Document, Error> {
    check_version()?;
    Run::new(request)?.document()
}

/// A run of the library, which keeps its output.
pub(crate) struct Run {
    room: Room,
}

impl Run {
    /// The run of a request.
    fn new(request: &[u8]) -> Result<Run, Error> {
        // SAFETY: it takes nothing.
        let room = Room::new(unsafe { ffi::rinqebo_run_size() })?;
        // SAFETY: the bytes are those of a slice, which is borrowed for the call and overlaps nothing; the room has
        // the size and the alignment of a run, and holds none.
        unsafe { ffi::rinqebo_run_new(request.as_ptr(), request.len(), room.as_ptr()) };
        Ok(Run { room })
    }

    /// The comparison of the runs of two requests, and the number of the side that has no result.
    pub(crate) fn of_diff(from: &[u8], to: &[u8], with_origins: bool) -> Result<(Run, u32), Error> {
        // SAFETY: it takes nothing.
        let room = Room::new(unsafe { ffi::rinqebo_run_size() })?;
        let (origins, mut side) = (u32::from(with_origins), 0);
        // SAFETY: the bytes and the room as in `new`; the number is borrowed for the call.
        unsafe {
            let (left, right) = (from.as_ptr(), to.as_ptr());
            ffi::rinqebo_diff_new(left, from.len(), right, to.len(), origins, room.as_ptr(), &mut side)
        };
        Ok((Run { room }, side))
    }

    /// The document of the run, or why there is none.
    pub(crate) fn document<T: DeserializeOwned>(&self) -> Result<T, Error> {
        match (self.status(), self.text()) {
            (DONE, document) => serde_json::from_slice(&document).map_err(Error::unreadable),
            (1, document) => Err(Error::Refused(Refusal::read(&document)?)),
            (7, document) => Err(Error::NoProfile(Refusal::read(&document)?)),
            (status, reason) => Err(Error::of(status, String::from_utf8_lossy(&reason).into_owned())),
        }
    }

    fn status(&self) -> u32 {
        // SAFETY: the room holds a run, here and until `drop`.
        unsafe { ffi::rinqebo_run_status(self.room.as_ptr()) }
    }

    /// The output of the run, read piece after piece.
    fn text(&self) -> Vec<u8> {
        // SAFETY: the room holds a run.
        let mut text = vec![0; unsafe { ffi::rinqebo_run_length(self.room.as_ptr()) }];
        let mut end = 0;
        while let Some(left) = text.get_mut(end..).filter(|left| !left.is_empty()) {
            // SAFETY: the room holds a run, and what is left of the buffer is borrowed for the call.
            match unsafe { ffi::rinqebo_run_text(self.room.as_ptr(), end, left.as_mut_ptr(), left.len()) } {
                0 => break,
                count => end += count,
            }
        }
        text
    }
}

impl Drop for Run {
    fn drop(&mut self) {
        // SAFETY: the room holds a run, and nothing uses it after this.
        unsafe { ffi::rinqebo_run_free(self.room.as_ptr()) }
    }
}
