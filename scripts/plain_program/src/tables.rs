//! The tables of a file. Some fields are read only to be checked.
#![allow(dead_code)]
use crate::values::{
    FailFast, FinalStatusLevel, FlakyFailStatus, FlakyResult, LeakTimeout, Output, ReportSkipped, Retries,
    SlowTimeout, Span, StatusLevel, TargetRunner, TestThreads, ThreadsRequired,
};
use serde::Deserialize;
use std::collections::BTreeMap;

#[derive(Debug, Deserialize)]
#[serde(rename_all = "kebab-case")]
pub struct File {
    pub store: Option<Store>,
    pub nextest_version: Option<toml::Value>,
    pub experimental: Option<toml::Value>,
    #[serde(default)]
    pub test_groups: BTreeMap<String, Group>,
    #[serde(default)]
    pub scripts: Scripts,
    #[serde(default)]
    pub profile: BTreeMap<String, Profile>,
}

#[derive(Debug, Deserialize)]
pub struct Store {
    pub dir: Option<String>,
}

#[derive(Debug, Deserialize)]
#[serde(rename_all = "kebab-case")]
pub struct Group {
    pub max_threads: TestThreads,
}

#[derive(Debug, Default, Deserialize)]
#[serde(default)]
pub struct Scripts {
    pub setup: BTreeMap<String, SetupScript>,
    pub wrapper: BTreeMap<String, Wrapper>,
}

#[derive(Debug, Deserialize)]
#[serde(rename_all = "kebab-case")]
pub struct SetupScript {
    pub command: Command,
    pub slow_timeout: Option<SlowTimeout>,
    pub leak_timeout: Option<LeakTimeout>,
    #[serde(default)]
    pub capture_stdout: bool,
    #[serde(default)]
    pub capture_stderr: bool,
    pub junit: Option<OverrideJunit>,
}

#[derive(Debug, Deserialize)]
#[serde(rename_all = "kebab-case")]
pub struct Wrapper {
    pub command: Command,
    pub target_runner: Option<TargetRunner>,
}

#[derive(Debug, Deserialize)]
#[serde(untagged)]
pub enum Command {
    Line(String),
    List(Vec<String>),
    #[serde(rename_all = "kebab-case")]
    Table { command_line: Box<Command>, env: Option<BTreeMap<String, String>>, relative_to: Option<String> },
}

#[derive(Debug, Default, Deserialize)]
#[serde(rename_all = "kebab-case", default)]
pub struct Profile {
    pub inherits: Option<String>,
    pub default_filter: Option<String>,
    pub retries: Option<Retries>,
    pub flaky_result: Option<FlakyResult>,
    pub test_threads: Option<TestThreads>,
    pub threads_required: Option<ThreadsRequired>,
    pub run_extra_args: Option<Vec<String>>,
    pub status_level: Option<StatusLevel>,
    pub final_status_level: Option<FinalStatusLevel>,
    pub failure_output: Option<Output>,
    pub success_output: Option<Output>,
    pub fail_fast: Option<FailFast>,
    pub slow_timeout: Option<SlowTimeout>,
    pub global_timeout: Option<Span>,
    pub leak_timeout: Option<LeakTimeout>,
    pub overrides: Vec<Override>,
    pub scripts: Vec<ScriptRule>,
    pub junit: Junit,
    pub archive: Option<toml::Value>,
    pub bench: Option<Bench>,
}

#[derive(Debug, Default, Deserialize)]
#[serde(rename_all = "kebab-case", default)]
pub struct Junit {
    pub path: Option<String>,
    pub report_name: Option<String>,
    pub store_success_output: Option<bool>,
    pub store_failure_output: Option<bool>,
    pub report_skipped: Option<ReportSkipped>,
    pub flaky_fail_status: Option<FlakyFailStatus>,
}

#[derive(Debug, Deserialize)]
#[serde(rename_all = "kebab-case")]
pub struct Bench {
    pub slow_timeout: Option<SlowTimeout>,
    pub global_timeout: Option<Span>,
}

#[derive(Debug, Deserialize)]
#[serde(rename_all = "kebab-case")]
pub struct Override {
    pub platform: Option<Platform>,
    pub filter: Option<String>,
    pub priority: Option<i8>,
    pub default_filter: Option<String>,
    pub threads_required: Option<ThreadsRequired>,
    pub run_extra_args: Option<Vec<String>>,
    pub retries: Option<Retries>,
    pub flaky_result: Option<FlakyResult>,
    pub slow_timeout: Option<SlowTimeout>,
    pub leak_timeout: Option<LeakTimeout>,
    pub test_group: Option<String>,
    pub success_output: Option<Output>,
    pub failure_output: Option<Output>,
    #[serde(default)]
    pub junit: OverrideJunit,
    pub bench: Option<OverrideBench>,
}

#[derive(Debug, Default, Deserialize)]
#[serde(rename_all = "kebab-case", default)]
pub struct OverrideJunit {
    pub store_success_output: Option<bool>,
    pub store_failure_output: Option<bool>,
    pub report_skipped: Option<ReportSkipped>,
    pub flaky_fail_status: Option<FlakyFailStatus>,
}

#[derive(Debug, Deserialize)]
#[serde(rename_all = "kebab-case")]
pub struct OverrideBench {
    pub slow_timeout: Option<SlowTimeout>,
}

#[derive(Debug, Deserialize)]
#[serde(rename_all = "kebab-case")]
pub struct ScriptRule {
    pub platform: Option<Platform>,
    pub filter: Option<String>,
    pub setup: Option<Ids>,
    pub list_wrapper: Option<String>,
    pub run_wrapper: Option<String>,
}

#[derive(Debug, Deserialize)]
#[serde(untagged)]
pub enum Ids {
    One(String),
    Several(Vec<String>),
}

#[derive(Debug, Deserialize)]
#[serde(untagged)]
pub enum Platform {
    Target(String),
    Table { host: Option<String>, target: Option<String> },
}

impl Platform {
    pub fn host(&self) -> Option<&str> {
        match self {
            Platform::Target(_) => None,
            Platform::Table { host, .. } => host.as_deref(),
        }
    }

    pub fn target(&self) -> Option<&str> {
        match self {
            Platform::Target(target) => Some(target),
            Platform::Table { target, .. } => target.as_deref(),
        }
    }
}
