//! Values that settings have, and how a page shows them. Some are read only to be checked.
#![allow(dead_code)]
use serde::Deserialize;
use std::fmt::{self, Display, Formatter};
use std::num::NonZeroU64;
use std::time::Duration;

/// An enum of words, as files write them.
macro_rules! words {
    ($name:ident { $($(#[$attribute:meta])* $variant:ident = $word:literal),* $(,)? }) => {
        #[derive(Clone, Copy, Debug, Deserialize)]
        pub enum $name { $($(#[$attribute])* #[serde(rename = $word)] $variant),* }

        impl $name {
            pub fn word(self) -> &'static str {
                match self { $($name::$variant => $word),* }
            }
        }
    };
}

words!(FlakyResult { Pass = "pass", Fail = "fail" });
words!(OnTimeout { Fail = "fail", Pass = "pass" });
words!(LeakResult { Pass = "pass", Fail = "fail" });
words!(Output { Immediate = "immediate", ImmediateFinal = "immediate-final", Final = "final", Never = "never" });
words!(ReportSkipped { None = "none", All = "all" });
words!(FlakyFailStatus { Failure = "failure", Success = "success" });
words!(Backoff { Fixed = "fixed", Exponential = "exponential" });
words!(ThreadsWord { NumCpus = "num-cpus", NumTestThreads = "num-test-threads" });
words!(CpusWord { NumCpus = "num-cpus" });
words!(AllWord { All = "all" });
words!(TargetRunner {
    Ignore = "ignore",
    OverridesWrapper = "overrides-wrapper",
    WithinWrapper = "within-wrapper",
    AroundWrapper = "around-wrapper",
});
words!(StatusLevel {
    None = "none",
    Fail = "fail",
    Retry = "retry",
    Slow = "slow",
    Leak = "leak",
    Pass = "pass",
    Skip = "skip",
    All = "all",
});
words!(FinalStatusLevel {
    None = "none",
    Fail = "fail",
    #[serde(alias = "retry")]
    Flaky = "flaky",
    Slow = "slow",
    Skip = "skip",
    Leak = "leak",
    Pass = "pass",
    All = "all",
});

/// A length of time.
#[derive(Clone, Copy, Debug, Default, Deserialize, PartialEq, PartialOrd)]
#[serde(try_from = "String")]
pub struct Span(pub Duration);

/// The nanoseconds of a unit.
fn unit(name: &str) -> Option<u64> {
    Some(match name {
        "ns" | "nsec" | "nanos" => 1,
        "us" | "usec" | "µs" => 1_000,
        "ms" | "msec" | "millis" => 1_000_000,
        "s" | "sec" | "secs" | "second" | "seconds" => 1_000_000_000,
        "m" | "min" | "mins" | "minute" | "minutes" => 60_000_000_000,
        "h" | "hr" | "hrs" | "hour" | "hours" => 3_600_000_000_000,
        "d" | "day" | "days" => 86_400_000_000_000,
        "w" | "wk" | "wks" | "week" | "weeks" => 604_800_000_000_000,
        "M" | "month" | "months" => 2_630_016_000_000_000,
        "y" | "yr" | "yrs" | "year" | "years" => 31_557_600_000_000_000,
        _ => return None,
    })
}

impl TryFrom<String> for Span {
    type Error = String;

    fn try_from(text: String) -> Result<Span, String> {
        if text == "0" {
            return Ok(Span::default());
        }
        let wrong = || format!("`{text}` is no duration");
        let (mut rest, mut sum) = (text.trim_start_matches(' '), 0u128);
        if rest.is_empty() {
            return Err(wrong());
        }
        while !rest.is_empty() {
            let digits = rest.find(|c: char| !c.is_ascii_digit()).unwrap_or(rest.len());
            let number: u64 = rest[..digits].parse().map_err(|_| wrong())?;
            rest = rest[digits..].trim_start_matches(' ');
            let letters = rest.find(|c: char| !c.is_alphabetic()).unwrap_or(rest.len());
            let size = unit(&rest[..letters]).ok_or_else(wrong)?;
            sum += u128::from(number) * u128::from(size);
            rest = rest[letters..].trim_start_matches(' ');
        }
        let seconds = u64::try_from(sum / 1_000_000_000).map_err(|_| wrong())?;
        Ok(Span(Duration::new(seconds, (sum % 1_000_000_000) as u32)))
    }
}

impl Display for Span {
    fn fmt(&self, f: &mut Formatter<'_>) -> fmt::Result {
        let nanoseconds = self.0.as_nanos();
        if nanoseconds == 0 {
            return write!(f, "\"0s\"");
        }
        for name in ["y", "d", "h", "m", "s", "ms", "us", "ns"] {
            let size = u128::from(unit(name).unwrap_or(1));
            if nanoseconds % size == 0 {
                return write!(f, "\"{}{name}\"", nanoseconds / size);
            }
        }
        Ok(())
    }
}

/// How often a failed test runs again.
#[derive(Clone, Copy, Debug, Deserialize)]
#[serde(try_from = "RetriesForm")]
pub enum Retries {
    Fixed { count: u32, delay: Span, jitter: bool },
    Exponential { count: u32, delay: Span, jitter: bool, max_delay: Option<Span> },
}

#[derive(Deserialize)]
#[serde(untagged)]
enum RetriesForm {
    Count(u32),
    Table(RetriesTable),
}

#[derive(Deserialize)]
#[serde(rename_all = "kebab-case")]
struct RetriesTable {
    backoff: Backoff,
    count: u32,
    delay: Option<Span>,
    #[serde(default)]
    jitter: bool,
    max_delay: Option<Span>,
}

impl TryFrom<RetriesForm> for Retries {
    type Error = &'static str;

    fn try_from(form: RetriesForm) -> Result<Retries, &'static str> {
        let RetriesTable { backoff, count, delay, jitter, max_delay } = match form {
            RetriesForm::Count(count) => {
                return Ok(Retries::Fixed { count, delay: Span::default(), jitter: false });
            }
            RetriesForm::Table(table) => table,
        };
        match (backoff, delay) {
            (Backoff::Fixed, delay) => Ok(Retries::Fixed { count, delay: delay.unwrap_or_default(), jitter }),
            (Backoff::Exponential, None) => Err("exponential retries need a delay"),
            (Backoff::Exponential, Some(delay)) if max_delay.is_some_and(|most| most < delay) => {
                Err("`max-delay` is below `delay`")
            }
            (Backoff::Exponential, Some(delay)) => Ok(Retries::Exponential { count, delay, jitter, max_delay }),
        }
    }
}

impl Display for Retries {
    fn fmt(&self, f: &mut Formatter<'_>) -> fmt::Result {
        let (backoff, count, delay, jitter, max_delay) = match *self {
            Retries::Fixed { count, delay, jitter } if delay == Span::default() && !jitter => {
                return write!(f, "{count}");
            }
            Retries::Fixed { count, delay, jitter } => ("fixed", count, delay, jitter, None),
            Retries::Exponential { count, delay, jitter, max_delay } => {
                ("exponential", count, delay, jitter, max_delay)
            }
        };
        write!(f, "{{ backoff = \"{backoff}\", count = {count}, delay = {delay}")?;
        if jitter {
            write!(f, ", jitter = true")?;
        }
        if let Some(most) = max_delay {
            write!(f, ", max-delay = {most}")?;
        }
        write!(f, " }}")
    }
}

/// When a test is slow, and its result then.
#[derive(Clone, Copy, Debug, Deserialize)]
#[serde(from = "SlowTimeoutForm")]
pub struct SlowTimeout {
    period: Span,
    terminate_after: Option<NonZeroU64>,
    grace_period: Span,
    on_timeout: OnTimeout,
}

#[derive(Deserialize)]
#[serde(untagged)]
enum SlowTimeoutForm {
    Period(Span),
    #[serde(rename_all = "kebab-case")]
    Table {
        period: Span,
        terminate_after: Option<NonZeroU64>,
        grace_period: Option<Span>,
        on_timeout: Option<OnTimeout>,
    },
}

impl From<SlowTimeoutForm> for SlowTimeout {
    fn from(form: SlowTimeoutForm) -> SlowTimeout {
        let (period, terminate_after, grace_period, on_timeout) = match form {
            SlowTimeoutForm::Period(period) => (period, None, None, None),
            SlowTimeoutForm::Table { period, terminate_after, grace_period, on_timeout } => {
                (period, terminate_after, grace_period, on_timeout)
            }
        };
        SlowTimeout {
            period,
            terminate_after,
            grace_period: grace_period.unwrap_or(Span(Duration::from_secs(10))),
            on_timeout: on_timeout.unwrap_or(OnTimeout::Fail),
        }
    }
}

impl Display for SlowTimeout {
    fn fmt(&self, f: &mut Formatter<'_>) -> fmt::Result {
        write!(f, "{{ period = {}", self.period)?;
        if let Some(count) = self.terminate_after {
            write!(f, ", terminate-after = {count}")?;
        }
        write!(f, ", grace-period = {}, on-timeout = \"{}\" }}", self.grace_period, self.on_timeout.word())
    }
}

/// When a test leaks, and its result then.
#[derive(Clone, Copy, Debug, Deserialize)]
#[serde(from = "LeakTimeoutForm")]
pub struct LeakTimeout {
    period: Span,
    result: LeakResult,
}

#[derive(Deserialize)]
#[serde(untagged)]
enum LeakTimeoutForm {
    Period(Span),
    Table { period: Span, result: Option<LeakResult> },
}

impl From<LeakTimeoutForm> for LeakTimeout {
    fn from(form: LeakTimeoutForm) -> LeakTimeout {
        match form {
            LeakTimeoutForm::Period(period) => LeakTimeout { period, result: LeakResult::Pass },
            LeakTimeoutForm::Table { period, result } => {
                LeakTimeout { period, result: result.unwrap_or(LeakResult::Pass) }
            }
        }
    }
}

impl Display for LeakTimeout {
    fn fmt(&self, f: &mut Formatter<'_>) -> fmt::Result {
        write!(f, "{{ period = {}, result = \"{}\" }}", self.period, self.result.word())
    }
}

/// How many threads a test takes.
#[derive(Clone, Copy, Debug, Deserialize)]
#[serde(untagged)]
pub enum ThreadsRequired {
    Count(NonZeroU64),
    Word(ThreadsWord),
}

/// How many threads there are.
#[derive(Debug, Deserialize)]
#[serde(untagged)]
pub enum TestThreads {
    Count(std::num::NonZeroI64),
    Word(CpusWord),
}

/// After how many failures a run ends.
#[derive(Debug, Deserialize)]
#[serde(untagged)]
pub enum FailFast {
    Flag(bool),
    #[serde(rename_all = "kebab-case")]
    Table { max_fail: MaxFail, terminate: Option<toml::Value> },
}

#[derive(Debug, Deserialize)]
#[serde(untagged)]
pub enum MaxFail {
    Count(NonZeroU64),
    Word(AllWord),
}

/// The value of a setting.
pub enum Value<'c> {
    Number(i64),
    Flag(bool),
    Text(&'c str),
    Texts(&'c [String]),
    Threads(ThreadsRequired),
    Retries(Retries),
    Slow(SlowTimeout),
    Leak(LeakTimeout),
}

/// Writes a text of TOML.
fn quote(text: &str, f: &mut Formatter<'_>) -> fmt::Result {
    write!(f, "\"")?;
    for c in text.chars() {
        match c {
            '"' | '\\' => write!(f, "\\{c}")?,
            c if c.is_control() => write!(f, "\\u{:04x}", u32::from(c))?,
            c => write!(f, "{c}")?,
        }
    }
    write!(f, "\"")
}

impl Display for Value<'_> {
    fn fmt(&self, f: &mut Formatter<'_>) -> fmt::Result {
        match self {
            Value::Number(number) => write!(f, "{number}"),
            Value::Flag(flag) => write!(f, "{flag}"),
            Value::Text(text) => quote(text, f),
            Value::Texts(texts) => {
                write!(f, "[")?;
                for (index, text) in texts.iter().enumerate() {
                    if index > 0 {
                        write!(f, ", ")?;
                    }
                    quote(text, f)?;
                }
                write!(f, "]")
            }
            Value::Threads(ThreadsRequired::Count(count)) => write!(f, "{count}"),
            Value::Threads(ThreadsRequired::Word(word)) => quote(word.word(), f),
            Value::Retries(retries) => write!(f, "{retries}"),
            Value::Slow(slow) => write!(f, "{slow}"),
            Value::Leak(leak) => write!(f, "{leak}"),
        }
    }
}
