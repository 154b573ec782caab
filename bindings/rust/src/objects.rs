//! What a runner needs of a profile beside the settings of tests.

use crate::document::{Finding, Level, Origin, PathStep};
use crate::settings::{Group, GroupThreads, LeakTimeout};
use crate::spelled;
use serde::{Deserialize, Serialize};
use std::collections::BTreeMap;
use std::path::{Path, PathBuf};
use std::time::Duration;

/// How many tests run at a time.
pub type TestThreads = GroupThreads;

/// After how many failures a run ends.
#[derive(Clone, Copy, Debug, PartialEq, Eq, Serialize, Deserialize)]
#[serde(from = "spelled::CountOr", into = "spelled::CountOr")]
pub enum MaxFail {
    Count(u64),
    /// It runs all tests.
    All,
}

/// How long a whole run may take.
#[derive(Clone, Copy, Debug, PartialEq, Eq, Serialize, Deserialize)]
#[serde(rename_all = "kebab-case")]
#[non_exhaustive]
pub struct GlobalTimeout {
    #[serde(with = "spelled::duration")]
    pub test: Duration,
    #[serde(with = "spelled::duration")]
    pub benchmark: Duration,
}

/// Which tests are shown as they end.
#[derive(Clone, Copy, Debug, PartialEq, Eq, Serialize, Deserialize)]
#[serde(rename_all = "kebab-case")]
pub enum StatusLevel {
    None,
    Fail,
    Retry,
    Slow,
    Leak,
    Pass,
    Skip,
    All,
}

/// Which tests are shown at the end of a run.
#[derive(Clone, Copy, Debug, PartialEq, Eq, Serialize, Deserialize)]
#[serde(rename_all = "kebab-case")]
pub enum FinalStatusLevel {
    None,
    Fail,
    Flaky,
    Slow,
    Skip,
    Leak,
    Pass,
    All,
}

/// The report of a run.
#[derive(Clone, Debug, PartialEq, Eq, Serialize, Deserialize)]
#[serde(rename_all = "kebab-case")]
#[non_exhaustive]
pub struct JunitFile {
    /// Where it is written.
    pub path: String,
    /// The name of the report.
    pub report_name: String,
}

/// The values of a profile for a whole run.
#[derive(Clone, Debug, PartialEq, Eq, Serialize, Deserialize)]
#[serde(rename_all = "kebab-case")]
#[non_exhaustive]
pub struct RunSettings {
    /// The name of the profile.
    pub profile: String,
    /// The profile that `inherits` names, if it is written.
    pub inherits: Option<String>,
    /// The names of all profiles.
    pub profiles: Vec<String>,
    pub test_threads: TestThreads,
    pub max_fail: MaxFail,
    pub global_timeout: GlobalTimeout,
    pub status_level: StatusLevel,
    pub final_status_level: FinalStatusLevel,
    /// The report of the run, if one is written.
    pub junit: Option<JunitFile>,
    /// The directory in which the profile stores what it writes.
    pub store_dir: String,
    /// The text of the default filter that counts; `all()` if no file writes one.
    pub default_filter: String,
    /// The arguments of tests for which no rule sets them.
    pub run_extra_args: Vec<String>,
}

/// What a program is relative to.
#[derive(Clone, Copy, Debug, PartialEq, Eq, Serialize, Deserialize)]
#[serde(rename_all = "kebab-case")]
pub enum RelativeTo {
    None,
    WorkspaceRoot,
    Target,
}

/// The command of a script.
#[derive(Clone, Debug, PartialEq, Eq, Serialize, Deserialize)]
#[serde(rename_all = "kebab-case")]
#[non_exhaustive]
pub struct Command {
    /// The program. If a target directory was given, it is joined to the directory that it is relative to.
    pub program: String,
    pub args: Vec<String>,
    /// The environment variables that it sets.
    pub env: BTreeMap<String, String>,
    pub relative_to: RelativeTo,
}

impl Command {
    /// Returns the command for the standard library to run.
    pub fn to_std(&self) -> std::process::Command {
        let mut command = std::process::Command::new(&self.program);
        command.args(&self.args).envs(&self.env);
        command
    }
}

/// When a setup script counts as slow, and when it is terminated.
#[derive(Clone, Copy, Debug, PartialEq, Eq, Serialize, Deserialize)]
#[serde(rename_all = "kebab-case")]
#[non_exhaustive]
pub struct ScriptTimeout {
    #[serde(with = "spelled::duration")]
    pub period: Duration,
    /// After how many periods it is terminated.
    pub terminate_after: Option<u64>,
    #[serde(with = "spelled::duration")]
    pub grace_period: Duration,
}

/// What the report keeps of a setup script.
#[derive(Clone, Copy, Debug, PartialEq, Eq, Serialize, Deserialize)]
#[serde(rename_all = "kebab-case")]
#[non_exhaustive]
pub struct ScriptReport {
    pub store_success_output: bool,
    pub store_failure_output: bool,
}

/// A test of a list, by its binary and its name.
#[derive(Clone, Debug, PartialEq, Eq, Serialize, Deserialize)]
#[serde(rename_all = "kebab-case")]
#[non_exhaustive]
pub struct ListTest {
    pub binary_id: String,
    pub name: String,
}

/// A script that runs once, before the tests that enable it.
#[derive(Clone, Debug, PartialEq, Eq, Serialize, Deserialize)]
#[serde(rename_all = "kebab-case")]
#[non_exhaustive]
pub struct SetupScript {
    pub id: String,
    pub command: Command,
    pub slow_timeout: Option<ScriptTimeout>,
    pub leak_timeout: Option<LeakTimeout>,
    pub capture_stdout: bool,
    pub capture_stderr: bool,
    pub junit: ScriptReport,
    /// The tests of the list that enable it, in the order of the list. A session has no list, and `None` here.
    pub tests: Option<Vec<ListTest>>,
}

/// How a wrapper combines with the runner of a target.
#[derive(Clone, Copy, Debug, PartialEq, Eq, Serialize, Deserialize)]
#[serde(rename_all = "kebab-case")]
pub enum TargetRunner {
    Ignore,
    OverridesWrapper,
    WithinWrapper,
    AroundWrapper,
}

/// A script that wraps tests, or binaries that list their tests.
#[derive(Clone, Debug, PartialEq, Eq, Serialize, Deserialize)]
#[serde(rename_all = "kebab-case")]
#[non_exhaustive]
pub struct WrapperScript {
    pub id: String,
    pub command: Command,
    pub target_runner: TargetRunner,
}

/// Where the two timeouts of a whole run come from.
#[derive(Clone, Debug, PartialEq, Eq, Serialize, Deserialize)]
#[serde(rename_all = "kebab-case")]
#[non_exhaustive]
pub struct TimeoutOrigins {
    pub test: Vec<Origin>,
    pub benchmark: Vec<Origin>,
}

/// Where the report of a run comes from.
#[derive(Clone, Debug, PartialEq, Eq, Serialize, Deserialize)]
#[serde(rename_all = "kebab-case")]
#[non_exhaustive]
pub struct JunitOrigins {
    pub path: Vec<Origin>,
    pub report_name: Vec<Origin>,
}

/// Where the values of a profile for a whole run come from.
#[derive(Clone, Debug, PartialEq, Eq, Serialize, Deserialize)]
#[serde(rename_all = "kebab-case")]
#[non_exhaustive]
pub struct RunOrigins {
    pub inherits: Vec<Origin>,
    pub test_threads: Vec<Origin>,
    pub max_fail: Vec<Origin>,
    pub global_timeout: TimeoutOrigins,
    pub status_level: Vec<Origin>,
    pub final_status_level: Vec<Origin>,
    pub junit: JunitOrigins,
    pub store_dir: Vec<Origin>,
    pub default_filter: Vec<Origin>,
    pub run_extra_args: Vec<Origin>,
}

/// Where the values of a run and the groups come from.
#[derive(Clone, Debug, PartialEq, Eq, Serialize, Deserialize)]
#[serde(rename_all = "kebab-case")]
#[non_exhaustive]
pub struct ObjectOrigins {
    pub run: RunOrigins,
    /// Where the numbers of threads of the groups come from, by the groups' names.
    pub groups: BTreeMap<String, Vec<Origin>>,
}

/// What a runner needs of a profile beside the settings of tests. The library writes it in JSON, for a session and in
/// the document of a run.
#[derive(Clone, Debug, PartialEq, Eq, Serialize, Deserialize)]
#[serde(rename_all = "kebab-case")]
#[non_exhaustive]
pub struct Objects {
    pub run: RunSettings,
    /// The groups that the configuration defines, by name.
    pub groups: Vec<Group>,
    /// The setup scripts that it defines, in the order in which they run.
    pub setup_scripts: Vec<SetupScript>,
    /// The wrapper scripts that it defines. The document of a run has only those that wrap the run of some test of its
    /// list, or the listing of some binary of it.
    pub wrappers: Vec<WrapperScript>,
    /// The warnings of the load.
    #[serde(rename = "findings")]
    pub warnings: Vec<Warning>,
    /// Where the values of `run` and the groups come from.
    pub origins: ObjectOrigins,
}

/// A warning of a load, as the library writes it in JSON.
#[derive(Clone, Debug, PartialEq, Eq, Serialize, Deserialize)]
#[non_exhaustive]
pub struct Warning {
    /// Its code, such as `unknown-key`.
    pub code: String,
    /// The path of the file.
    pub file: String,
    /// The paths of keys, or the names of profiles.
    pub names: Vec<String>,
    pub profile: Option<String>,
    /// How many rules it is about.
    pub count: Option<u64>,
}

impl Warning {
    /// The name that nextest-runner has for it.
    fn upstream(&self) -> Option<&'static str> {
        match self.code.as_str() {
            "unknown-key" => Some("UnknownConfigKeys"),
            "reserved-profile" => Some("UnknownReservedProfiles"),
            "old-script-table" => Some("DeprecatedScriptConfig"),
            "empty-script-rule" => Some("EmptyScriptSections"),
            _ => None,
        }
    }

    fn finding(&self, path: &[&str], message: String) -> Finding {
        Finding {
            code: self.code.clone(),
            upstream: self.upstream().map(str::to_owned),
            level: Level::Warning,
            message,
            path: path.iter().map(|&key| PathStep::Key(key.to_owned())).collect(),
            file: Some(self.file.clone()),
            source: None,
            lines: None,
            range: None,
            column: None,
            expression: None,
            span: None,
            expected: None,
            help: None,
            notes: Vec::new(),
        }
    }

    /// Returns the findings that a whole run reports for it, one for each of its names, without places in the file,
    /// help and notes. The message of an unknown key says only that the key has no effect, and its path is left out:
    /// its name has the keys with dots between them, and a key may have dots of its own.
    pub fn findings(&self) -> Vec<Finding> {
        let names = self.names.iter();
        match (self.code.as_str(), &self.profile, self.count) {
            ("unknown-key", _, _) => names.map(|name| self.finding(&[], format!("`{name}` has no effect"))).collect(),
            ("reserved-profile", _, _) => {
                let of_profile = |name: &String| {
                    let message = format!("`{name}`: names of profiles that begin with `default-` are nextest's own");
                    self.finding(&["profile", name], message)
                };
                names.map(of_profile).collect()
            }
            ("old-script-table", _, _) => {
                vec![self.finding(&["script"], "the table `script` is the old place of setup scripts".to_owned())]
            }
            ("empty-script-rule", Some(profile), Some(count)) => {
                vec![self.finding(&["profile", profile, "scripts"], format!("rules that name no script: {count}"))]
            }
            (code, _, _) => vec![self.finding(&[], code.to_owned())],
        }
    }
}

impl RunSettings {
    /// Returns the directory in which the profile stores what it writes, as a path.
    pub fn store(&self) -> &Path {
        Path::new(&self.store_dir)
    }

    /// Returns the path of the run's report, if one is written.
    pub fn junit_path(&self) -> Option<PathBuf> {
        self.junit.as_ref().map(|junit| PathBuf::from(&junit.path))
    }
}
