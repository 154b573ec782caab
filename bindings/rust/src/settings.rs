//! The settings of a test.

use crate::{ffi, spelled};
use serde::{Deserialize, Serialize};
use std::time::Duration;

/// How long delays between tries are.
#[derive(Clone, Copy, Debug, PartialEq, Eq)]
pub enum Backoff {
    /// Every delay is the same.
    Fixed,
    /// Each is longer than the one before, up to a longest one, if it is given.
    Exponential { max_delay: Option<Duration> },
}

/// How often a test that fails is retried.
#[derive(Clone, Copy, Debug, PartialEq, Eq, Serialize, Deserialize)]
#[serde(try_from = "spelled::RetriesOr", into = "spelled::RetriesOr")]
#[non_exhaustive]
pub struct Retries {
    pub count: u32,
    pub delay: Duration,
    pub jitter: bool,
    pub backoff: Backoff,
}

/// How many threads a test takes.
#[derive(Clone, Copy, Debug, PartialEq, Eq, Serialize, Deserialize)]
#[serde(try_from = "spelled::CountOr", into = "spelled::CountOr")]
pub enum Threads {
    Count(u64),
    NumCpus,
    NumTestThreads,
}

/// The result of a test.
#[derive(Clone, Copy, Debug, PartialEq, Eq, Serialize, Deserialize)]
#[serde(rename_all = "kebab-case")]
pub enum Outcome {
    Pass,
    Fail,
}

/// When a test counts as slow, and when it is terminated.
#[derive(Clone, Copy, Debug, PartialEq, Eq, Serialize, Deserialize)]
#[serde(rename_all = "kebab-case")]
#[non_exhaustive]
pub struct SlowTimeout {
    #[serde(with = "spelled::duration")]
    pub period: Duration,
    /// After how many periods it is terminated.
    pub terminate_after: Option<u64>,
    #[serde(with = "spelled::duration")]
    pub grace_period: Duration,
    /// The result of a test that is terminated.
    pub on_timeout: Outcome,
}

/// How long processes that a test started may outlive it.
#[derive(Clone, Copy, Debug, PartialEq, Eq, Serialize, Deserialize)]
#[serde(rename_all = "kebab-case")]
#[non_exhaustive]
pub struct LeakTimeout {
    #[serde(with = "spelled::duration")]
    pub period: Duration,
    /// The result of a test that leaks.
    pub result: Outcome,
}

/// How many tests of a group run at a time.
#[derive(Clone, Copy, Debug, PartialEq, Eq, Serialize, Deserialize)]
#[serde(from = "spelled::ThreadsOr", into = "spelled::ThreadsOr")]
pub enum GroupThreads {
    /// This many. A negative number means so many fewer than there are processors.
    Count(i64),
    NumCpus,
}

/// A group that is not the global one.
#[derive(Clone, Debug, PartialEq, Eq, Serialize, Deserialize)]
#[serde(rename_all = "kebab-case")]
#[non_exhaustive]
pub struct Group {
    pub name: String,
    pub max_threads: GroupThreads,
}

/// When the output of a test is shown.
#[derive(Clone, Copy, Debug, PartialEq, Eq, Serialize, Deserialize)]
#[serde(rename_all = "kebab-case")]
pub enum Display {
    Immediate,
    ImmediateFinal,
    Final,
    Never,
}

/// What the report has of a test.
#[derive(Clone, Copy, Debug, PartialEq, Eq, Serialize, Deserialize)]
#[serde(rename_all = "kebab-case")]
#[non_exhaustive]
pub struct Report {
    pub store_success_output: bool,
    pub store_failure_output: bool,
    /// Whether it lists the test if it is skipped.
    pub lists_skipped: bool,
    /// Whether it marks the test as passed if it is flaky and counts as failed.
    pub marks_flaky_fail_as_success: bool,
}

/// The fifteen settings of a test, in a session and in the document of a run.
#[derive(Clone, Debug, PartialEq, Eq, Serialize, Deserialize)]
#[serde(rename_all = "kebab-case")]
#[non_exhaustive]
pub struct TestSettings {
    /// Tests of a higher priority start earlier.
    pub priority: i32,
    pub threads_required: Threads,
    /// The id of the script that wraps the run.
    pub run_wrapper: Option<String>,
    /// Extra arguments of the test binary.
    pub run_extra_args: Vec<String>,
    pub retries: Retries,
    /// The result of the test if it passes only when it is retried.
    pub flaky_result: Outcome,
    pub slow_timeout: SlowTimeout,
    pub leak_timeout: LeakTimeout,
    /// The group, unless it is the global one.
    pub test_group: Option<Group>,
    pub success_output: Display,
    pub failure_output: Display,
    pub report: Report,
}

const NANOSECONDS: u128 = 1_000_000_000;

pub(crate) fn duration(parts: ffi::Duration) -> Duration {
    let nanoseconds = u128::from(parts.high) << 64 | u128::from(parts.low);
    let seconds = u64::try_from(nanoseconds / NANOSECONDS).unwrap_or(u64::MAX);
    Duration::new(seconds, (nanoseconds % NANOSECONDS) as u32)
}

pub(crate) fn retries(numbers: ffi::Retries) -> Retries {
    let max_delay = (numbers.has_max_delay == 1).then(|| duration(numbers.max_delay));
    Retries {
        count: numbers.count,
        delay: duration(numbers.delay),
        jitter: numbers.jitter == 1,
        backoff: match numbers.backoff {
            0 => Backoff::Fixed,
            _ => Backoff::Exponential { max_delay },
        },
    }
}

pub(crate) fn threads(numbers: ffi::Threads) -> Threads {
    match numbers.kind {
        0 => Threads::Count(numbers.count),
        1 => Threads::NumCpus,
        _ => Threads::NumTestThreads,
    }
}

pub(crate) fn slow_timeout(numbers: ffi::SlowTimeout) -> SlowTimeout {
    SlowTimeout {
        period: duration(numbers.period),
        terminate_after: (numbers.terminate_after != 0).then_some(numbers.terminate_after),
        grace_period: duration(numbers.grace_period),
        on_timeout: if numbers.on_timeout == 0 { Outcome::Fail } else { Outcome::Pass },
    }
}

pub(crate) fn leak_timeout(numbers: ffi::LeakTimeout) -> LeakTimeout {
    LeakTimeout {
        period: duration(numbers.period),
        result: if numbers.result == 0 { Outcome::Pass } else { Outcome::Fail },
    }
}

pub(crate) fn group_threads(numbers: ffi::GroupThreads) -> GroupThreads {
    match numbers.kind {
        0 => GroupThreads::Count(numbers.count),
        _ => GroupThreads::NumCpus,
    }
}

pub(crate) fn display(number: u32) -> Display {
    match number {
        0 => Display::Immediate,
        1 => Display::ImmediateFinal,
        2 => Display::Final,
        _ => Display::Never,
    }
}
