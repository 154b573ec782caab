//! The document of a run, which the library writes in JSON.

use crate::objects::Objects;
use crate::settings::{Group, Report, TestSettings};
use crate::{Error, Mode, Platform};
use serde::de::DeserializeOwned;
use serde::{Deserialize, Serialize};
use std::collections::BTreeMap;

/// The name of the group that has no limit of its own.
const GLOBAL_GROUP: &str = "@global";

/// What a run returns: all settings of each test, the scripts of the list, and the objects of the profile.
#[derive(Clone, Debug, PartialEq, Serialize, Deserialize)]
#[serde(rename_all = "kebab-case")]
#[non_exhaustive]
pub struct Document {
    /// The workspace's root.
    pub root: String,
    /// The built-in defaults, and then the files, the lowest first.
    pub sources: Vec<Source>,
    pub profile: String,
    /// The profile and its ancestors, the nearest first, and last `default`.
    pub chain: Vec<String>,
    pub mode: Mode,
    /// The triple of the host.
    pub host: String,
    /// The triple of the target, if there is one.
    pub target: Option<String>,
    /// The tests of the list, in the order of the keys of their binaries.
    pub tests: Vec<TestRow>,
    /// The warnings of the files.
    pub findings: Vec<Finding>,
    /// The rules that hold for none of the tests.
    pub unused: Vec<Origin>,
    /// The ids of the setup scripts that the tests enable, in the order in which they run.
    pub setup_scripts: Vec<String>,
    /// The list wrappers of the binaries that have one, in the order of the list's keys.
    pub list_wrappers: Vec<ListWrapper>,
    /// What a runner needs of the profile beside the settings of tests. Programs are joined to the target directory of
    /// the list.
    pub objects: Objects,
}

impl Document {
    /// Returns the settings of a test of the document, with the types of those of a session.
    pub fn settings(&self, test: &TestRow) -> Result<TestSettings, Error> {
        let slow_timeout = match self.mode {
            Mode::Test => "slow-timeout",
            Mode::Benchmark => "bench.slow-timeout",
        };
        Ok(TestSettings {
            priority: test.value("priority")?,
            threads_required: test.value("threads-required")?,
            run_wrapper: test.value("run-wrapper")?,
            run_extra_args: test.value("run-extra-args")?,
            retries: test.value("retries")?,
            flaky_result: test.value("flaky-result")?,
            slow_timeout: test.value(slow_timeout)?,
            leak_timeout: test.value("leak-timeout")?,
            test_group: self.group(test.value("test-group")?)?,
            success_output: test.value("success-output")?,
            failure_output: test.value("failure-output")?,
            report: Report {
                store_success_output: test.value("junit.store-success-output")?,
                store_failure_output: test.value("junit.store-failure-output")?,
                lists_skipped: test.is_word("junit.report-skipped", "all")?,
                marks_flaky_fail_as_success: test.is_word("junit.flaky-fail-status", "success")?,
            },
        })
    }

    /// The group of this name, unless it is the global one.
    fn group(&self, name: String) -> Result<Option<Group>, Error> {
        if name == GLOBAL_GROUP {
            return Ok(None);
        }
        match self.objects.groups.iter().find(|group| group.name == name) {
            Some(group) => Ok(Some(group.clone())),
            None => Err(Error::Unreadable(format!("no group `{name}`"))),
        }
    }
}

impl TestRow {
    /// The value of a setting.
    fn value<T: DeserializeOwned>(&self, key: &str) -> Result<T, Error> {
        let setting = self.settings.get(key).ok_or_else(|| Error::Unreadable(format!("no setting `{key}`")))?;
        T::deserialize(&setting.value).map_err(|error| Error::Unreadable(format!("`{key}`: {error}")))
    }

    /// Whether the value of a setting is this word.
    fn is_word(&self, key: &str, word: &str) -> Result<bool, Error> {
        Ok(self.value::<String>(key)? == word)
    }
}

/// The script that wraps a binary while it lists its tests.
#[derive(Clone, Debug, PartialEq, Eq, Serialize, Deserialize)]
#[serde(rename_all = "kebab-case")]
#[non_exhaustive]
pub struct ListWrapper {
    pub binary_id: String,
    /// The id of the script.
    pub value: String,
}

/// A source of the configuration.
#[derive(Clone, Debug, PartialEq, Eq, Serialize, Deserialize)]
#[non_exhaustive]
pub struct Source {
    pub kind: SourceKind,
    /// The tool that provides it.
    pub tool: Option<String>,
    pub path: Option<String>,
}

/// A kind of source.
#[derive(Clone, Copy, Debug, PartialEq, Eq, Serialize, Deserialize)]
#[serde(rename_all = "kebab-case")]
pub enum SourceKind {
    /// The built-in defaults.
    Default,
    Tool,
    /// The file of an organisation.
    Organisation,
    /// The repository's file that a user named.
    Explicit,
    /// The repository's file at its usual path.
    Discovered,
}

/// A test with its settings.
#[derive(Clone, Debug, PartialEq, Serialize, Deserialize)]
#[serde(rename_all = "kebab-case")]
#[non_exhaustive]
pub struct TestRow {
    pub binary_id: String,
    pub name: String,
    /// The platform that its binary is built for.
    pub platform: Platform,
    /// Whether it runs.
    pub runs: Runs,
    /// Its settings, by their keys in files, with where they come from. [`Document::settings`] returns their values with
    /// types.
    pub settings: BTreeMap<String, Setting>,
}

/// Whether a test runs: the default filter that counts matches it, and the list does not mark it as ignored.
#[derive(Clone, Debug, PartialEq, Eq, Serialize, Deserialize)]
#[non_exhaustive]
pub struct Runs {
    pub value: bool,
    /// Whether the list marks the test as ignored.
    #[serde(default, skip_serializing_if = "std::ops::Not::not")]
    pub ignored: bool,
    /// Where the default filter is written.
    pub origins: Vec<Origin>,
}

/// A setting of a test.
#[derive(Clone, Debug, PartialEq, Serialize, Deserialize)]
#[non_exhaustive]
pub struct Setting {
    /// Its value; `null` if it has none.
    pub value: serde_json::Value,
    /// Where the value comes from.
    pub origins: Vec<Origin>,
}

/// Where a value comes from.
#[derive(Clone, Debug, PartialEq, Eq, Serialize, Deserialize)]
#[non_exhaustive]
pub struct Origin {
    pub kind: OriginKind,
    /// The profile that writes it.
    pub profile: Option<String>,
    /// The position of the rule in its list, from 0.
    pub index: Option<usize>,
    /// The position of the source among those of the document, from 0. `Sources::paths` has the same order.
    pub source: Option<usize>,
    /// The first and the last line.
    pub lines: Option<(usize, usize)>,
    /// The lines and columns at which it starts and ends.
    pub range: Option<Range>,
}

/// The line and the column, both from 1, at which something starts, and those behind its end.
pub type Range = ((usize, usize), (usize, usize));

/// A kind of origin.
#[derive(Clone, Copy, Debug, PartialEq, Eq, Serialize, Deserialize)]
#[serde(rename_all = "kebab-case")]
pub enum OriginKind {
    BuiltIn,
    DefaultTable,
    /// A value of a profile.
    Profile,
    Override,
    Script,
    /// A table of a file beside its profiles, such as a test group.
    File,
}

/// What is wrong with a file. What is not known is left out where it is written in JSON.
#[derive(Clone, Debug, PartialEq, Eq, Serialize, Deserialize)]
#[non_exhaustive]
pub struct Finding {
    /// Its code, such as `unknown-key`.
    pub code: String,
    /// The name that nextest-runner has for it.
    #[serde(default, skip_serializing_if = "Option::is_none")]
    pub upstream: Option<String>,
    pub level: Level,
    pub message: String,
    /// The keys and the positions that lead to it. It is empty if the finding is about no value, and for an unknown key
    /// of a session.
    #[serde(default, skip_serializing_if = "Vec::is_empty")]
    pub path: Vec<PathStep>,
    /// The path of the file, in a finding of a configuration that is loaded.
    #[serde(default, skip_serializing_if = "Option::is_none")]
    pub file: Option<String>,
    /// The position of the source among those of the document, from 0.
    #[serde(default, skip_serializing_if = "Option::is_none")]
    pub source: Option<usize>,
    /// The first and the last line.
    #[serde(default, skip_serializing_if = "Option::is_none")]
    pub lines: Option<(usize, usize)>,
    /// The lines and columns at which it starts and ends.
    #[serde(default, skip_serializing_if = "Option::is_none")]
    pub range: Option<Range>,
    #[serde(default, skip_serializing_if = "Option::is_none")]
    pub column: Option<usize>,
    /// The filter or the platform that it is about, and the bytes at fault.
    #[serde(default, skip_serializing_if = "Option::is_none")]
    pub expression: Option<String>,
    #[serde(default, skip_serializing_if = "Option::is_none")]
    pub span: Option<(usize, usize)>,
    /// What was expected.
    #[serde(default, skip_serializing_if = "Option::is_none")]
    pub expected: Option<String>,
    /// What to do.
    #[serde(default, skip_serializing_if = "Option::is_none")]
    pub help: Option<String>,
    /// Notes that explain it.
    #[serde(default, skip_serializing_if = "Vec::is_empty")]
    pub notes: Vec<String>,
}

/// A step of the path to a value.
#[derive(Clone, Debug, PartialEq, Eq, Serialize, Deserialize)]
#[serde(untagged)]
pub enum PathStep {
    /// A key of a table.
    Key(String),
    /// A position in an array, from 0.
    Index(usize),
}

/// How bad a finding is.
#[derive(Clone, Copy, Debug, PartialEq, Eq, Serialize, Deserialize)]
#[serde(rename_all = "kebab-case")]
pub enum Level {
    Error,
    Warning,
}

/// Why a call returns nothing.
#[derive(Clone, Debug, PartialEq, Eq, Serialize)]
#[non_exhaustive]
pub struct Refusal {
    /// The reason, for people.
    pub reason: String,
    /// What is wrong with the files, one by one. It is empty if a session is loaded: then there is the reason alone.
    pub findings: Vec<Finding>,
}

impl Refusal {
    /// A refusal with a reason alone.
    pub(crate) fn of(reason: String) -> Refusal {
        Refusal { reason, findings: Vec::new() }
    }

    /// The refusal in a document.
    pub(crate) fn read(document: &[u8]) -> Result<Refusal, Error> {
        #[derive(Deserialize)]
        struct Findings {
            findings: Vec<Finding>,
        }
        let Findings { findings } = serde_json::from_slice(document).map_err(Error::unreadable)?;
        let messages: Vec<_> = findings.iter().map(|finding| finding.message.as_str()).collect();
        Ok(Refusal { reason: messages.join("\n"), findings })
    }
}
