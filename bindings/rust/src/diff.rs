//! What changes between two runs.

use crate::document::{Origin, Source};
use crate::run::{Run, RunRequest};
use crate::version::check_version;
use crate::{json_of, Error, Mode, Platform};
use serde::{Deserialize, Serialize};
use std::fmt;

/// What counts as a change.
#[derive(Clone, Copy, Debug, Default, PartialEq, Eq)]
#[non_exhaustive]
pub struct DiffOptions {
    /// Whether a value that is the same and comes from elsewhere is a change too.
    pub with_origins: bool,
}

/// A side of a comparison.
#[derive(Clone, Copy, Debug, PartialEq, Eq, Serialize)]
#[serde(rename_all = "kebab-case")]
pub enum SideName {
    /// The left side, from which something changes.
    From,
    /// The right side, to which something changes.
    To,
}

impl SideName {
    /// The side of a number of the library, if it is one.
    fn of(number: u32) -> Option<SideName> {
        match number {
            1 => Some(SideName::From),
            2 => Some(SideName::To),
            _ => None,
        }
    }
}

impl fmt::Display for SideName {
    fn fmt(&self, f: &mut fmt::Formatter<'_>) -> fmt::Result {
        f.write_str(match self {
            SideName::From => "the left side (`from`)",
            SideName::To => "the right side (`to`)",
        })
    }
}

/// What changes from one run to another. It serializes as the document of `rinqebo diff --format json`, without the
/// members `command` and `version`.
#[derive(Clone, Debug, PartialEq, Serialize, Deserialize)]
#[serde(rename_all = "kebab-case")]
#[non_exhaustive]
pub struct Diff {
    /// The left side.
    pub from: DiffSide,
    /// The right side.
    pub to: DiffSide,
    /// How many tests both lists have.
    pub compared: u64,
    /// How many of these change.
    pub changed: u64,
    /// What changes for these tests, in the order of the settings. Each change has its tests.
    pub changes: Vec<Change>,
    /// The tests that only the left list has.
    pub removed: Vec<TestId>,
    /// The tests that only the right list has.
    pub added: Vec<TestId>,
    /// What changes for the whole run.
    pub run: Vec<RunChange>,
}

impl Diff {
    /// Whether nothing changes.
    pub fn is_empty(&self) -> bool {
        self.changes.is_empty() && self.removed.is_empty() && self.added.is_empty() && self.run.is_empty()
    }
}

/// A side of a diff.
#[derive(Clone, Debug, PartialEq, Eq, Serialize, Deserialize)]
#[serde(rename_all = "kebab-case")]
#[non_exhaustive]
pub struct DiffSide {
    /// The workspace's root.
    pub root: String,
    /// The built-in defaults, and then the files, the lowest first.
    pub sources: Vec<Source>,
    pub profile: String,
    /// The profile and its ancestors, the nearest first, and last `default`.
    pub chain: Vec<String>,
    pub mode: Mode,
    /// The triple of the host.
    pub host: String,
    /// The triple of the target, if there is one.
    pub target: Option<String>,
}

/// The names of a test.
#[derive(Clone, Debug, PartialEq, Eq, Serialize, Deserialize)]
#[serde(rename_all = "kebab-case")]
#[non_exhaustive]
pub struct TestId {
    pub binary_id: String,
    pub name: String,
    /// The platform that its binary is built for.
    pub platform: Platform,
}

/// A setting on one side.
#[derive(Clone, Debug, PartialEq, Serialize, Deserialize)]
#[non_exhaustive]
pub struct Given {
    /// Its key, or `runs`: whether a test runs.
    pub key: String,
    /// Its value; `null` if it has none.
    pub value: serde_json::Value,
    /// Where the value comes from. The sources are those of the side.
    pub origins: Vec<Origin>,
    /// Whether a test does not run because the list of this side marks it as ignored.
    #[serde(default, skip_serializing_if = "std::ops::Not::not")]
    pub ignored: bool,
}

/// A setting that changes in the same way for some tests.
#[derive(Clone, Debug, PartialEq, Serialize, Deserialize)]
#[non_exhaustive]
pub struct Change {
    pub from: Given,
    pub to: Given,
    pub tests: Vec<TestId>,
}

/// Something that changes for the whole run.
#[derive(Clone, Debug, PartialEq, Serialize, Deserialize)]
#[non_exhaustive]
pub struct RunChange {
    pub from: Given,
    pub to: Given,
}

/// Why there is no diff.
#[derive(Clone, Debug, PartialEq, Eq)]
#[non_exhaustive]
pub struct DiffError {
    /// The side that has no result; `None` if the error is about neither side, such as refused memory.
    pub side: Option<SideName>,
    /// Why it has none.
    pub error: Error,
}

impl DiffError {
    fn on(side: SideName, error: Error) -> DiffError {
        DiffError { side: Some(side), error }
    }
}

impl From<Error> for DiffError {
    fn from(error: Error) -> DiffError {
        DiffError { side: None, error }
    }
}

impl fmt::Display for DiffError {
    fn fmt(&self, f: &mut fmt::Formatter<'_>) -> fmt::Result {
        match self.side {
            Some(side) => write!(f, "no result for {side}: {}", self.error),
            None => self.error.fmt(f),
        }
    }
}

impl std::error::Error for DiffError {
    fn source(&self) -> Option<&(dyn std::error::Error + 'static)> {
        Some(&self.error)
    }
}

/// Compares two runs, and returns what changes from the first to the second.
///
/// ```no_run
/// # fn main() -> Result<(), Box<dyn std::error::Error>> {
/// # let list = std::fs::read_to_string("list.json")?;
/// use rinqebo::{diff, DiffOptions, Mode, RunRequest, Sources};
///
/// let older = Sources::of_file("/w", "[profile.ci]\n", "x86_64-unknown-linux-gnu");
/// let newer = Sources::of_file("/w", "[profile.ci]\nretries = 2\n", "x86_64-unknown-linux-gnu");
/// let from = RunRequest { sources: &older, profile: "ci", mode: Mode::Test, list: &list };
/// let to = RunRequest { sources: &newer, ..from };
/// for change in diff(&from, &to, &DiffOptions::default())?.changes {
///     println!("{}: {} -> {}", change.to.key, change.from.value, change.to.value);
/// }
/// # Ok(())
/// # }
/// ```
pub fn diff(from: &RunRequest<'_>, to: &RunRequest<'_>, options: &DiffOptions) -> Result<Diff, DiffError> {
    let from = json_of(from).map_err(|error| DiffError::on(SideName::From, error))?;
    let to = json_of(to).map_err(|error| DiffError::on(SideName::To, error))?;
    diff_json(&from, &to, options)
}

/// Compares the runs of two requests in JSON, and returns what changes from the first to the second.
pub fn diff_json(from: &[u8], to: &[u8], options: &DiffOptions) -> Result<Diff, DiffError> {
    check_version()?;
    let (run, side) = Run::of_diff(from, to, options.with_origins)?;
    run.document().map_err(|error| DiffError { side: SideName::of(side), error })
}
