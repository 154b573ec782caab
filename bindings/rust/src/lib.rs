//! Safe types over Rinqebo's proved library: one call for a whole run, one for what changes between two, and
//! nextest configurations that are loaded once and queried often.
//!
//! ```no_run
//! # fn main() -> Result<(), rinqebo::Error> {
//! let sources = rinqebo::Sources::of_file("/w", "[profile.ci]\nretries = 2\n", "x86_64-unknown-linux-gnu");
//! let config = rinqebo::Config::load(&sources)?;
//! let profile = config.profile("ci")?;
//! let test = rinqebo::Test::named("tests::quick").in_binary("api").of_target("lib", "api").of_package("api 0.1.0");
//! assert_eq!(profile.settings(&test)?.retries.count, 2);
//! # Ok(())
//! # }
//! ```
//!
//! # Threads
//!
//! A [`Config`] may move to another thread (`Send`), since it owns all that it points to. It is not
//! `Sync`: the library is promised one call at a time on each configuration and its profiles, and two
//! threads that share one could break that. So a [`Profile`], which borrows its configuration, stays
//! on the thread of that one. Threads that query at the same time have a configuration each, or share one in a
//! `Mutex` and open its profiles under the lock.

mod diff;
mod document;
mod error;
mod ffi;
mod objects;
mod room;
mod run;
mod settings;
mod sources;
mod spelled;
mod version;

pub use diff::{
    diff, diff_json, Change, Diff, DiffError, DiffOptions, DiffSide, Given, RunChange, SideName, TestId,
};
pub use document::{
    Document, Finding, Level, ListWrapper, Origin, OriginKind, PathStep, Range, Refusal, Runs, Setting, Source,
    SourceKind, TestRow,
};
pub use error::Error;
pub use objects::{
    Command, FinalStatusLevel, GlobalTimeout, JunitFile, JunitOrigins, ListTest, MaxFail, ObjectOrigins, Objects,
    RelativeTo, RunOrigins, RunSettings, ScriptReport, ScriptTimeout, SetupScript, StatusLevel, TargetRunner,
    TestThreads, TimeoutOrigins, Warning, WrapperScript,
};
use room::Room;
pub use run::{resolve, resolve_json, RunRequest};
use serde::{Deserialize, Serialize};
pub use settings::{
    Backoff, Display, Group, GroupThreads, LeakTimeout, Outcome, Report, Retries, SlowTimeout, TestSettings, Threads,
};
pub use sources::{Features, File, Machine, ReadOutcome, Sources, ToolFile};
use std::mem::size_of;
use version::check_version;
pub use version::{version, version_number, VERSION, VERSION_NUMBER};

const DONE: u32 = 0;
const SMALL: u32 = 2;
const REASON: u32 = 0;
const GROUP: u32 = 1;
const WRAPPER: u32 = 2;
const OBJECTS: u32 = 3;
const UNKNOWN_NUMBER: u32 = 9;
const DEFAULT: &str = "default";
const NO_NAME: usize = usize::MAX;

/// The platform that a binary is built for.
#[derive(Clone, Copy, Debug, PartialEq, Eq, Serialize, Deserialize)]
#[serde(rename_all = "kebab-case")]
pub enum Platform {
    Host,
    Target,
}

/// The run mode.
#[derive(Clone, Copy, Debug, PartialEq, Eq, Serialize, Deserialize)]
#[serde(rename_all = "kebab-case")]
pub enum Mode {
    Test,
    Benchmark,
}

/// A test, and what is known of its binary, each as nextest lists it.
///
/// A filter may use any part, so each has to be given:
///
/// ```
/// let test = rinqebo::Test::named("db::reads").in_binary("api").of_target("lib", "api").of_package("api 0.1.0");
/// ```
#[derive(Clone, Copy, Debug)]
pub struct Test<'a> {
    package: &'a str,
    binary: &'a str,
    kind: &'a str,
    target: &'a str,
    name: &'a str,
    platform: Platform,
    mode: Mode,
}

/// The name of a test. Its binary has to follow.
#[derive(Clone, Copy, Debug)]
#[must_use]
pub struct NamedTest<'a> {
    name: &'a str,
}

/// A test of a binary. Its target has to follow.
#[derive(Clone, Copy, Debug)]
#[must_use]
pub struct BinaryTest<'a> {
    name: &'a str,
    binary: &'a str,
}

/// A test of a binary's target. Its package has to follow.
#[derive(Clone, Copy, Debug)]
#[must_use]
pub struct TargetTest<'a> {
    of: BinaryTest<'a>,
    kind: &'a str,
    target: &'a str,
}

impl<'a> NamedTest<'a> {
    /// Sets the id of the test's binary, such as `api::smoke`.
    pub fn in_binary(self, binary: &'a str) -> BinaryTest<'a> {
        BinaryTest { name: self.name, binary }
    }
}

impl<'a> BinaryTest<'a> {
    /// Sets the kind of the binary's target, such as `lib` or `test`, and the name of that target.
    pub fn of_target(self, kind: &'a str, target: &'a str) -> TargetTest<'a> {
        TargetTest { of: self, kind, target }
    }
}

impl<'a> TargetTest<'a> {
    /// Sets the id of the binary's package.
    pub fn of_package(self, package: &'a str) -> Test<'a> {
        Test {
            package,
            binary: self.of.binary,
            kind: self.kind,
            target: self.target,
            name: self.of.name,
            platform: Platform::Target,
            mode: Mode::Test,
        }
    }
}

impl<'a> Test<'a> {
    /// Returns a test with this name. Its binary is built for the target, and it is run as a test, unless
    /// [`Test::on`] and [`Test::run_as`] say otherwise.
    pub fn named(name: &'a str) -> NamedTest<'a> {
        NamedTest { name }
    }

    /// Returns the same test, of a binary that is built for this platform.
    #[must_use]
    pub fn on(self, platform: Platform) -> Test<'a> {
        Test { platform, ..self }
    }

    /// Returns the same test, run in this mode.
    #[must_use]
    pub fn run_as(self, mode: Mode) -> Test<'a> {
        Test { mode, ..self }
    }

    fn numbers(&self) -> ffi::Test {
        // The pointer of an empty text is dangling, but not null.
        let bytes = |text: &str| ffi::Bytes {
            at: text.as_ptr(),
            length: text.len(),
        };
        ffi::Test {
            size: size_of::<ffi::Test>(),
            package: bytes(self.package),
            binary: bytes(self.binary),
            kind: bytes(self.kind),
            target: bytes(self.target),
            name: bytes(self.name),
            platform: match self.platform {
                Platform::Host => 0,
                Platform::Target => 1,
            },
            mode: match self.mode {
                Mode::Test => 0,
                Mode::Benchmark => 1,
            },
        }
    }
}

/// A value as JSON.
fn json_of(value: &impl Serialize) -> Result<Vec<u8>, Error> {
    serde_json::to_vec(value).map_err(|error| Error::NotUnderstood(error.to_string()))
}

/// The text that a call copies out, or the status with which it ends.
fn copied(copy: impl Fn(&mut [u8], &mut usize) -> u32) -> Result<String, u32> {
    let mut out = vec![0; 64];
    loop {
        let mut needed = 0;
        match copy(&mut out, &mut needed) {
            DONE => {
                out.truncate(needed);
                return Ok(String::from_utf8_lossy(&out).into_owned());
            }
            SMALL => out.resize(needed, 0),
            status => return Err(status),
        }
    }
}

/// A loaded configuration.
pub struct Config {
    room: Room,
}

// SAFETY: a session owns all that it points to, on the heap of the process. See "Threads" above for why a
// configuration is not `Sync`.
unsafe impl Send for Config {}

impl Config {
    /// Loads a configuration from the texts of its files.
    pub fn load(sources: &Sources) -> Result<Config, Error> {
        Config::from_json(&json_of(sources)?)
    }

    /// Loads a configuration by a request in JSON, which `docs/LIBRARY.md` describes.
    pub fn from_json(request: &[u8]) -> Result<Config, Error> {
        check_version()?;
        // SAFETY: it takes nothing.
        let room = Room::new(unsafe { ffi::rinqebo_session_size() })?;
        // SAFETY: the bytes are those of a slice, which is borrowed for the call and overlaps nothing; the room has
        // the size and the alignment of a session, and holds none.
        unsafe { ffi::rinqebo_session_load(request.as_ptr(), request.len(), room.as_ptr()) };
        let config = Config { room };
        // SAFETY: the room holds a session, here and until `drop`.
        match unsafe { ffi::rinqebo_session_status(config.room.as_ptr()) } {
            DONE => Ok(config),
            status => Err(Error::of(status, config.reason())),
        }
    }

    fn reason(&self) -> String {
        // SAFETY: the room holds a session, and the buffer and the number are borrowed for the call.
        copied(|out, needed| unsafe {
            ffi::rinqebo_session_reason(self.room.as_ptr(), out.as_mut_ptr(), out.len(), needed)
        })
        .unwrap_or_default()
    }

    /// Opens the profile with this name.
    pub fn profile(&self, name: &str) -> Result<Profile<'_>, Error> {
        // SAFETY: it takes nothing.
        let room = Room::new(unsafe { ffi::rinqebo_profile_size() })?;
        // SAFETY: the first room holds a session, which stays there while it is borrowed, as long as the profile;
        // the second has the size and the alignment of a profile, and holds none; the name as in `from_json`.
        unsafe { ffi::rinqebo_profile_open(self.room.as_ptr(), name.as_ptr(), name.len(), room.as_ptr()) };
        let profile = Profile {
            room,
            config: self,
        };
        // SAFETY: the room holds a profile, here and until `drop`.
        match unsafe { ffi::rinqebo_profile_status(profile.room.as_ptr()) } {
            DONE => Ok(profile),
            status => Err(Error::of(status, profile.text(REASON, 0).unwrap_or_default())),
        }
    }

    /// The objects of the profile that every configuration has.
    fn objects(&self) -> Result<Objects, Error> {
        self.profile("default")?.objects()
    }

    /// Returns the names of its profiles.
    pub fn profiles(&self) -> Result<Vec<String>, Error> {
        Ok(self.objects()?.run.profiles)
    }

    /// Returns the groups that it defines, sorted by name.
    pub fn groups(&self) -> Result<Vec<Group>, Error> {
        Ok(self.objects()?.groups)
    }

    /// Returns the warnings of its load, in their order. They have no places in the files.
    pub fn findings(&self) -> Result<Vec<Finding>, Error> {
        Ok(self.objects()?.warnings.iter().flat_map(Warning::findings).collect())
    }
}

impl Drop for Config {
    fn drop(&mut self) {
        // SAFETY: the room holds a session, no profile borrows it, and nothing uses it after this.
        unsafe { ffi::rinqebo_session_free(self.room.as_ptr()) }
    }
}

/// A profile of a configuration.
pub struct Profile<'c> {
    room: Room,
    config: &'c Config,
}

impl Profile<'_> {
    fn text(&self, kind: u32, index: usize) -> Option<String> {
        // SAFETY: the room holds a profile, whose session is borrowed; the buffer as in `Config::reason`.
        copied(|out, needed| unsafe {
            ffi::rinqebo_profile_text(self.room.as_ptr(), kind, index, out.as_mut_ptr(), out.len(), needed)
        })
        .ok()
    }

    fn name(&self, kind: u32, index: usize) -> Option<String> {
        if index == NO_NAME {
            return None;
        }
        self.text(kind, index)
    }

    /// Returns what a runner needs of the profile beside the settings of tests.
    pub fn objects(&self) -> Result<Objects, Error> {
        let text = self.text(OBJECTS, 0).ok_or(Error::Unknown(UNKNOWN_NUMBER))?;
        serde_json::from_str(&text).map_err(Error::unreadable)
    }

    /// Returns the values of the profile for a whole run.
    pub fn run(&self) -> Result<RunSettings, Error> {
        Ok(self.objects()?.run)
    }

    /// Returns the setup scripts that the configuration defines, in the order in which they run.
    pub fn setup_scripts(&self) -> Result<Vec<SetupScript>, Error> {
        Ok(self.objects()?.setup_scripts)
    }

    /// Returns the wrapper scripts that the configuration defines.
    pub fn wrappers(&self) -> Result<Vec<WrapperScript>, Error> {
        Ok(self.objects()?.wrappers)
    }

    /// Returns the names of the profile, of those that it inherits from, the nearest first, and `default`.
    pub fn chain(&self) -> Result<Vec<String>, Error> {
        let mut run = self.run()?;
        let mut chain = Vec::new();
        while run.profile != DEFAULT {
            let parent = run.inherits.unwrap_or_else(|| DEFAULT.to_owned());
            chain.push(run.profile);
            run = self.config.profile(&parent)?.run()?;
        }
        chain.push(run.profile);
        Ok(chain)
    }

    /// The arguments of a test, of which there are `count`.
    fn arguments(&self, test: &Test<'_>, count: usize) -> Result<Vec<String>, Error> {
        let test = test.numbers();
        let argument = |index| {
            // SAFETY: the room holds a profile, whose session is borrowed; the test, its texts, the buffer and the
            // number are borrowed for the call.
            copied(|out, needed| unsafe {
                let room = self.room.as_ptr();
                ffi::rinqebo_profile_argument(room, &test, index, out.as_mut_ptr(), out.len(), needed)
            })
            .map_err(|status| Error::of(status, String::new()))
        };
        (0..count).map(argument).collect()
    }

    fn numbers(&self, test: &Test<'_>) -> Result<ffi::Settings, Error> {
        let test = test.numbers();
        let mut numbers = ffi::Settings {
            size: size_of::<ffi::Settings>(),
            ..ffi::Settings::default()
        };
        // SAFETY: the room holds a profile, whose session is borrowed; the test, its texts and the settings are
        // borrowed for the call.
        match unsafe { ffi::rinqebo_profile_ask(self.room.as_ptr(), &test, &mut numbers) } {
            DONE => Ok(numbers),
            status => Err(Error::of(status, String::new())),
        }
    }

    /// Returns what a scheduler needs of a test, with its group as an index. It takes no memory.
    pub fn schedule(&self, test: &Test<'_>) -> Result<Schedule, Error> {
        let numbers = self.numbers(test)?;
        Ok(Schedule {
            priority: numbers.priority,
            in_default_filter: numbers.in_default_filter == 1,
            threads_required: settings::threads(numbers.threads_required),
            group: (numbers.test_group != NO_NAME)
                .then(|| (numbers.test_group, settings::group_threads(numbers.group_threads))),
        })
    }

    /// Returns the name of the group with this index.
    pub fn group_name(&self, index: usize) -> Option<String> {
        self.name(GROUP, index)
    }

    /// Returns the settings that the profile gives to a test.
    pub fn settings(&self, test: &Test<'_>) -> Result<TestSettings, Error> {
        let numbers = self.numbers(test)?;
        let test_group = self.name(GROUP, numbers.test_group).map(|name| Group {
            name,
            max_threads: settings::group_threads(numbers.group_threads),
        });
        Ok(TestSettings {
            priority: numbers.priority,
            threads_required: settings::threads(numbers.threads_required),
            run_wrapper: self.name(WRAPPER, numbers.run_wrapper),
            run_extra_args: self.arguments(test, numbers.run_extra_args)?,
            retries: settings::retries(numbers.retries),
            flaky_result: if numbers.flaky_result == 0 { Outcome::Pass } else { Outcome::Fail },
            slow_timeout: settings::slow_timeout(numbers.slow_timeout),
            leak_timeout: settings::leak_timeout(numbers.leak_timeout),
            test_group,
            success_output: settings::display(numbers.success_output),
            failure_output: settings::display(numbers.failure_output),
            report: Report {
                store_success_output: numbers.junit_store_success_output == 1,
                store_failure_output: numbers.junit_store_failure_output == 1,
                lists_skipped: numbers.junit_report_skipped == 1,
                marks_flaky_fail_as_success: numbers.junit_flaky_fail_status == 1,
            },
        })
    }

    /// Returns whether the profile's default filter matches a test.
    pub fn in_default_filter(&self, test: &Test<'_>) -> Result<bool, Error> {
        Ok(self.numbers(test)?.in_default_filter == 1)
    }
}

impl Drop for Profile<'_> {
    fn drop(&mut self) {
        // SAFETY: the room holds a profile, whose session is borrowed still, and nothing uses it after this.
        unsafe { ffi::rinqebo_profile_free(self.room.as_ptr()) }
    }
}

/// What a scheduler needs of a test.
#[derive(Clone, Copy, Debug, PartialEq, Eq, Serialize)]
#[serde(rename_all = "kebab-case")]
#[non_exhaustive]
pub struct Schedule {
    /// Tests of a higher priority start earlier.
    pub priority: i32,
    /// Whether the profile's default filter matches the test.
    pub in_default_filter: bool,
    pub threads_required: Threads,
    /// The index of the group and how many of its tests run at a time, unless it is the global one.
    pub group: Option<(usize, GroupThreads)>,
}
