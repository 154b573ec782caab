//! Values as files and documents spell them.

use crate::objects::MaxFail;
use crate::settings::{Backoff, GroupThreads, Retries, Threads};
use serde::{Deserialize, Serialize};
use std::time::Duration;

const NUM_CPUS: &str = "num-cpus";
const NUM_TEST_THREADS: &str = "num-test-threads";
const FIXED: &str = "fixed";
const EXPONENTIAL: &str = "exponential";

/// A number, or a word.
#[derive(Deserialize, Serialize)]
#[serde(untagged)]
pub enum CountOr {
    Count(u64),
    Word(String),
}

impl From<CountOr> for MaxFail {
    fn from(spelled: CountOr) -> MaxFail {
        match spelled {
            CountOr::Count(count) => MaxFail::Count(count),
            CountOr::Word(_) => MaxFail::All,
        }
    }
}

impl From<MaxFail> for CountOr {
    fn from(limit: MaxFail) -> CountOr {
        match limit {
            MaxFail::Count(count) => CountOr::Count(count),
            MaxFail::All => CountOr::Word("all".to_owned()),
        }
    }
}

impl TryFrom<CountOr> for Threads {
    type Error = String;

    fn try_from(spelled: CountOr) -> Result<Threads, String> {
        match spelled {
            CountOr::Count(count) => Ok(Threads::Count(count)),
            CountOr::Word(word) if word == NUM_CPUS => Ok(Threads::NumCpus),
            CountOr::Word(word) if word == NUM_TEST_THREADS => Ok(Threads::NumTestThreads),
            CountOr::Word(word) => Err(format!("no number of threads: {word}")),
        }
    }
}

impl From<Threads> for CountOr {
    fn from(threads: Threads) -> CountOr {
        match threads {
            Threads::Count(count) => CountOr::Count(count),
            Threads::NumCpus => CountOr::Word(NUM_CPUS.to_owned()),
            Threads::NumTestThreads => CountOr::Word(NUM_TEST_THREADS.to_owned()),
        }
    }
}

/// A count of retries, or a policy.
#[derive(Deserialize, Serialize)]
#[serde(untagged)]
pub enum RetriesOr {
    Count(u32),
    Table(RetryTable),
}

/// A policy of retries.
#[derive(Deserialize, Serialize)]
#[serde(rename_all = "kebab-case")]
pub struct RetryTable {
    backoff: String,
    count: u32,
    #[serde(with = "duration")]
    delay: Duration,
    #[serde(default, skip_serializing_if = "std::ops::Not::not")]
    jitter: bool,
    #[serde(default, with = "optional_duration", skip_serializing_if = "Option::is_none")]
    max_delay: Option<Duration>,
}

impl TryFrom<RetriesOr> for Retries {
    type Error = String;

    fn try_from(spelled: RetriesOr) -> Result<Retries, String> {
        let table = match spelled {
            RetriesOr::Table(table) => table,
            RetriesOr::Count(count) => {
                return Ok(Retries { count, delay: Duration::ZERO, jitter: false, backoff: Backoff::Fixed })
            }
        };
        let backoff = match table.backoff.as_str() {
            FIXED => Backoff::Fixed,
            EXPONENTIAL => Backoff::Exponential { max_delay: table.max_delay },
            other => return Err(format!("no backoff: {other}")),
        };
        Ok(Retries { count: table.count, delay: table.delay, jitter: table.jitter, backoff })
    }
}

impl From<Retries> for RetriesOr {
    fn from(retries: Retries) -> RetriesOr {
        let (backoff, max_delay) = match retries.backoff {
            Backoff::Fixed if retries.delay.is_zero() && !retries.jitter => return RetriesOr::Count(retries.count),
            Backoff::Fixed => (FIXED, None),
            Backoff::Exponential { max_delay } => (EXPONENTIAL, max_delay),
        };
        let Retries { count, delay, jitter, .. } = retries;
        RetriesOr::Table(RetryTable { backoff: backoff.to_owned(), count, delay, jitter, max_delay })
    }
}

/// A number that may be negative, or a word.
#[derive(Deserialize, Serialize)]
#[serde(untagged)]
pub enum ThreadsOr {
    Count(i64),
    Word(String),
}

impl From<ThreadsOr> for GroupThreads {
    fn from(spelled: ThreadsOr) -> GroupThreads {
        match spelled {
            ThreadsOr::Count(count) => GroupThreads::Count(count),
            ThreadsOr::Word(_) => GroupThreads::NumCpus,
        }
    }
}

impl From<GroupThreads> for ThreadsOr {
    fn from(threads: GroupThreads) -> ThreadsOr {
        match threads {
            GroupThreads::Count(count) => ThreadsOr::Count(count),
            GroupThreads::NumCpus => ThreadsOr::Word(NUM_CPUS.to_owned()),
        }
    }
}

/// Durations: a number and a unit, as `30s`.
pub mod duration {
    use serde::de::Error;
    use serde::{Deserialize, Deserializer, Serializer};
    use std::time::Duration;

    const SECOND: u128 = 1_000_000_000;

    /// The units, the longest first: a year has 365 days and 6 hours.
    const UNITS: [(&str, u128); 8] = [
        ("y", 31_557_600 * SECOND),
        ("d", 86_400 * SECOND),
        ("h", 3_600 * SECOND),
        ("m", 60 * SECOND),
        ("s", SECOND),
        ("ms", 1_000_000),
        ("us", 1_000),
        ("ns", 1),
    ];

    /// The duration of a text.
    pub fn read(text: &str) -> Option<Duration> {
        let (digits, name) = text.split_at(text.find(|c: char| !c.is_ascii_digit())?);
        let (_, unit) = UNITS.iter().find(|(unit, _)| *unit == name)?;
        let nanoseconds = digits.parse::<u128>().ok()?.checked_mul(*unit)?;
        let seconds = u64::try_from(nanoseconds / SECOND).ok()?;
        Some(Duration::new(seconds, (nanoseconds % SECOND) as u32))
    }

    /// The text of a duration: the longest unit that divides it.
    pub fn text(duration: &Duration) -> String {
        let nanoseconds = duration.as_nanos();
        let units = UNITS.iter().find(|(_, unit)| nanoseconds != 0 && nanoseconds % unit == 0);
        let (name, unit) = units.copied().unwrap_or(("s", SECOND));
        format!("{}{name}", nanoseconds / unit)
    }

    pub fn serialize<S: Serializer>(duration: &Duration, serializer: S) -> Result<S::Ok, S::Error> {
        serializer.serialize_str(&text(duration))
    }

    pub fn deserialize<'de, D: Deserializer<'de>>(deserializer: D) -> Result<Duration, D::Error> {
        let spelled = String::deserialize(deserializer)?;
        read(&spelled).ok_or_else(|| D::Error::custom(format!("no duration: {spelled}")))
    }
}

/// Durations that may be missing.
pub mod optional_duration {
    use serde::{Deserializer, Serializer};
    use std::time::Duration;

    pub fn serialize<S: Serializer>(duration: &Option<Duration>, serializer: S) -> Result<S::Ok, S::Error> {
        match duration {
            Some(duration) => super::duration::serialize(duration, serializer),
            None => serializer.serialize_none(),
        }
    }

    pub fn deserialize<'de, D: Deserializer<'de>>(deserializer: D) -> Result<Option<Duration>, D::Error> {
        super::duration::deserialize(deserializer).map(Some)
    }
}

#[cfg(test)]
mod tests {
    use super::duration::{read, text};
    use std::time::Duration;

    #[test]
    fn durations_are_spelled_as_files_spell_them() {
        let spelled = [
            (Duration::ZERO, "0s"),
            (Duration::from_secs(1), "1s"),
            (Duration::from_secs(90), "90s"),
            (Duration::from_secs(120), "2m"),
            (Duration::from_secs(31_557_600 * 30), "30y"),
            (Duration::from_millis(1500), "1500ms"),
            (Duration::from_nanos(7), "7ns"),
            (Duration::from_micros(7), "7us"),
        ];
        for (duration, spelling) in spelled {
            assert_eq!((text(&duration).as_str(), read(spelling)), (spelling, Some(duration)));
        }
        for wrong in ["", "s", "7", "7x", "-7s", "7 s", "99999999999999999999999999999999999999y"] {
            assert_eq!(read(wrong), None, "{wrong}");
        }
    }
}
