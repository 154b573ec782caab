//! The library through its safe types.

use rinqebo::{Backoff, Config, Display, Error, Group, GroupThreads, Machine, Mode, Outcome, Platform, Sources, Test, Threads};
use rinqebo::{resolve, resolve_json, Document, Level, Origin, OriginKind, RunRequest, SourceKind};
use rinqebo::{version, version_number, VERSION, VERSION_NUMBER};
use rinqebo::{File, ReadOutcome, Refusal, ToolFile};
use rinqebo::{FinalStatusLevel, Finding, ListTest, MaxFail, Objects, PathStep, RelativeTo, StatusLevel, TargetRunner};
use serde_json::json;
use std::sync::{Arc, Mutex};
use std::time::Duration;
use std::{fs, thread};

const TRIPLE: &str = "x86_64-unknown-linux-gnu";

const FILE: &str = r#"
[profile.default]
slow-timeout = { period = "30s", terminate-after = 3, grace-period = "1s", on-timeout = "pass" }
[profile.ci]
retries = { backoff = "exponential", count = 4, delay = "2s", jitter = true, max-delay = "10s" }
failure-output = "immediate-final"
leak-timeout = { period = "500ms", result = "fail" }
default-filter = "not test(/^manual::/)"
[profile.ci.junit]
path = "junit.xml"
store-success-output = true
[test-groups.db]
max-threads = 2
[test-groups.net]
max-threads = "num-cpus"
[[profile.ci.overrides]]
filter = "test(/^db::/)"
test-group = "db"
threads-required = "num-test-threads"
priority = -5
run-extra-args = ["--nocapture", "-q"]
[[profile.ci.overrides]]
filter = "kind(test)"
test-group = "net"
threads-required = 3
"#;

fn config() -> Config {
    Config::load(&Sources::of_file("/w", FILE, TRIPLE)).expect("the file is accepted")
}

/// A test of a library, with the parts that the filters here use.
fn test_of<'a>(binary: &'a str, name: &'a str) -> Test<'a> {
    Test::named(name).in_binary(binary).of_target("lib", binary).of_package("")
}

/// The name of a group, and how many of its tests run at a time.
fn group_of(group: &Group) -> (&str, GroupThreads) {
    (&group.name, group.max_threads)
}

/// A step of a path that is a key.
fn key(name: &str) -> PathStep {
    PathStep::Key(name.to_owned())
}

/// A path of keys.
fn keys(names: &[&str]) -> Vec<PathStep> {
    names.iter().map(|name| key(name)).collect()
}

/// A file of `examples/real`.
fn example(path: &str) -> String {
    fs::read_to_string(format!("{ROOT}/{path}")).expect("an example")
}

const ROOT: &str = concat!(env!("CARGO_MANIFEST_DIR"), "/../../examples/real");

/// `examples/real`, with its metadata.
fn real() -> Sources {
    let mut sources = Sources::of_file(ROOT, &example(".config/nextest.toml"), TRIPLE);
    sources.metadata = Some(example("metadata.json"));
    sources
}

#[test]
fn settings_are_those_of_the_first_rules() {
    let config = config();
    let profile = config.profile("ci").unwrap();
    let settings = profile.settings(&test_of("api", "db::reads")).unwrap();
    assert_eq!(settings.priority, -5);
    assert_eq!(settings.threads_required, Threads::NumTestThreads);
    assert_eq!(settings.test_group.as_ref().map(group_of), Some(("db", GroupThreads::Count(2))));
    assert_eq!(settings.run_extra_args, ["--nocapture", "-q"]);
    assert_eq!(settings.run_wrapper, None);
    assert_eq!(settings.retries.count, 4);
    assert_eq!(settings.retries.delay, Duration::from_secs(2));
    assert!(settings.retries.jitter);
    let max_delay = Some(Duration::from_secs(10));
    assert_eq!(settings.retries.backoff, Backoff::Exponential { max_delay });
    assert_eq!(settings.flaky_result, Outcome::Pass);
    assert_eq!(settings.slow_timeout.period, Duration::from_secs(30));
    assert_eq!(settings.slow_timeout.terminate_after, Some(3));
    assert_eq!(settings.slow_timeout.grace_period, Duration::from_secs(1));
    assert_eq!(settings.slow_timeout.on_timeout, Outcome::Pass);
    assert_eq!(settings.leak_timeout.period, Duration::from_millis(500));
    assert_eq!(settings.leak_timeout.result, Outcome::Fail);
    assert_eq!(settings.success_output, Display::Never);
    assert_eq!(settings.failure_output, Display::ImmediateFinal);
    assert!(settings.report.store_success_output && settings.report.store_failure_output);
    assert!(profile.in_default_filter(&test_of("api", "db::reads")).unwrap());
}

#[test]
fn what_filters_ask_of_a_test_counts() {
    let config = config();
    let profile = config.profile("ci").unwrap();
    let named = Test::named("manual::slow").in_binary("api::it");
    let test = named.of_target("test", "it").of_package("api");
    let settings = profile.settings(&test).unwrap();
    assert_eq!(settings.test_group.as_ref().map(group_of), Some(("net", GroupThreads::NumCpus)));
    assert_eq!(settings.threads_required, Threads::Count(3));
    assert!(!profile.in_default_filter(&test).unwrap());
    let test = named.of_target("lib", "it").of_package("api");
    assert_eq!(profile.settings(&test).unwrap().test_group, None);
    let benchmark = test.run_as(Mode::Benchmark);
    assert_eq!(profile.settings(&benchmark).unwrap().slow_timeout.terminate_after, None);
    let default = config.profile("default").unwrap();
    assert_eq!(default.settings(&test_of("", "")).unwrap().retries.count, 0);
}

#[test]
fn the_worked_example_is_answered_as_it_is_explained() {
    let config = Config::load(&real()).expect("the example is accepted");
    let profile = config.profile("ci").unwrap();
    let test = Test::named("smoke::whole").in_binary("api::smoke").of_target("test", "smoke").of_package("api");
    let settings = profile.settings(&test).unwrap();
    assert_eq!(settings.priority, 50);
    assert_eq!(settings.success_output, Display::Final);
    assert_eq!(settings.test_group, None);
}

#[test]
fn platforms_decide_rules() {
    let file = "[[profile.default.overrides]]\nplatform = { host = 'cfg(windows)' }\npriority = 1\n\
                [[profile.default.overrides]]\nplatform = { target = 'cfg(target_os = \"linux\")' }\npriority = 2\n";
    let mut sources = Sources::of_file("/w", file, "x86_64-pc-windows-msvc");
    let priority = |sources: &Sources, platform| {
        let config = Config::load(sources).unwrap();
        let test = test_of("a", "b").on(platform);
        let answer = config.profile("default").unwrap().settings(&test).unwrap().priority;
        answer
    };
    assert_eq!(priority(&sources, Platform::Target), 1);
    sources.host.triple = TRIPLE.to_owned();
    sources.target = Some(Machine { triple: "x86_64-pc-windows-msvc".to_owned(), cfg: None });
    assert_eq!(priority(&sources, Platform::Target), 0);
    assert_eq!(priority(&sources, Platform::Host), 2);
}

#[test]
fn refusals_tell_why() {
    let load = |text: &str| Config::load(&Sources::of_file("/w", text, TRIPLE)).err().expect("it is refused");
    assert!(matches!(load("[profile.ci"), Error::Refused(refusal) if !refusal.reason.is_empty()));
    assert!(matches!(load("[profile.ci]\nretries = 'x'"), Error::Refused(_)));
    assert!(matches!(load("[[profile.ci.overrides]]\nfilter = 'deps(a)'\nretries = 1"), Error::Refused(_)));
    let unknown = Config::load(&Sources::of_file("/w", "", "no-such-triple")).err().unwrap();
    assert_eq!(unknown, Error::NoEngines("platform `no-such-triple`: unknown target triple".to_owned()));
    let mut sources = Sources::of_file("/w", "", TRIPLE);
    sources.metadata = Some("{".to_owned());
    assert_eq!(Config::load(&sources).err(), Some(Error::NoEngines("the metadata is not valid JSON".to_owned())));
    let missing = config().profile("cj").err().unwrap();
    let told = matches!(&missing, Error::NoProfile(refusal) if refusal.reason.contains("`cj` not found"));
    assert!(told, "{missing}");
    let boxed: Box<dyn std::error::Error> = missing.into();
    assert!(boxed.to_string().contains("ci"));
}

/// A request for a session. The next tests break its members one by one.
fn request() -> serde_json::Value {
    let mut sources = Sources::of_file("/w", "", TRIPLE);
    sources.config_file = Some(File::of("/c.toml", ""));
    sources.organisation_config_file = Some(File::of("/o.toml", ""));
    sources.tools.push(ToolFile { tool: "tool".to_owned(), file: File::of("/t.toml", "") });
    sources.target = Some(Machine { triple: TRIPLE.to_owned(), cfg: None });
    serde_json::to_value(&sources).unwrap()
}

/// A request for a run.
fn run_request() -> serde_json::Value {
    let mut run = request();
    let members = run.as_object_mut().unwrap();
    members.insert("profile".to_owned(), json!("default"));
    members.insert("mode".to_owned(), json!("test"));
    members.insert("list".to_owned(), json!(example("list.json")));
    run
}

/// The place that the error of a request names.
fn place_of(error: Option<Error>) -> String {
    match error {
        Some(Error::NotUnderstood(reason)) => reason.split('`').nth(1).unwrap_or_default().to_owned(),
        other => panic!("{other:?}"),
    }
}

fn load_error(request: &serde_json::Value) -> Option<Error> {
    Config::from_json(request.to_string().as_bytes()).err()
}

fn run_error(request: &serde_json::Value) -> Option<Error> {
    resolve_json(request.to_string().as_bytes()).err()
}

/// A value with something else at a place, and without it.
fn spoiled(value: &serde_json::Value, pointer: &str) -> [serde_json::Value; 2] {
    let mut wrong = value.clone();
    *wrong.pointer_mut(pointer).unwrap() = json!(7);
    let (holder, key) = pointer.rsplit_once('/').unwrap();
    let mut missing = value.clone();
    missing.pointer_mut(holder).unwrap().as_object_mut().unwrap().remove(key);
    [wrong, missing]
}

#[test]
fn each_member_left_out_or_of_another_kind_is_told() {
    assert_eq!(load_error(&request()), None);
    assert_eq!(run_error(&run_request()), None);
    let places = [
        ("/root", "root"),
        ("/file", "file"),
        ("/file/path", "file.path"),
        ("/file/outcome", "file.outcome"),
        ("/file/text", "file.text"),
        ("/config-file", "config-file"),
        ("/config-file/path", "config-file.path"),
        ("/config-file/outcome", "config-file.outcome"),
        ("/config-file/text", "config-file.text"),
        ("/organisation-config-file", "organisation-config-file"),
        ("/organisation-config-file/path", "organisation-config-file.path"),
        ("/organisation-config-file/outcome", "organisation-config-file.outcome"),
        ("/organisation-config-file/text", "organisation-config-file.text"),
        ("/tools", "tools"),
        ("/tools/0/tool", "tools[0].tool"),
        ("/tools/0/path", "tools[0].path"),
        ("/tools/0/outcome", "tools[0].outcome"),
        ("/tools/0/text", "tools[0].text"),
        ("/features", "features"),
        ("/features/setup-scripts", "features.setup-scripts"),
        ("/features/wrapper-scripts", "features.wrapper-scripts"),
        ("/metadata", "metadata"),
        ("/host", "host"),
        ("/host/triple", "host.triple"),
        ("/host/cfg", "host.cfg"),
        ("/target", "target"),
        ("/target/triple", "target.triple"),
        ("/target/cfg", "target.cfg"),
    ];
    for (pointer, place) in places {
        for request in spoiled(&request(), pointer) {
            assert_eq!(place_of(load_error(&request)), place);
        }
    }
    let more = [("/profile", "profile"), ("/mode", "mode"), ("/list", "list")];
    for (pointer, place) in places.into_iter().chain(more) {
        for request in spoiled(&run_request(), pointer) {
            assert_eq!(place_of(run_error(&request)), place);
        }
    }
}

#[test]
fn words_that_stand_for_nothing_are_told() {
    let mut request = run_request();
    request["tools"][0]["tool"] = json!("no tool");
    assert_eq!(place_of(load_error(&request)), "tools[0].tool");
    assert_eq!(place_of(run_error(&request)), "tools[0].tool");
    let mut request = run_request();
    request["mode"] = json!("tests");
    let told = Error::NotUnderstood("expected test or benchmark at `mode`".to_owned());
    assert_eq!(run_error(&request), Some(told));
}

/// Why a request is not understood: a load and a run report the same.
fn reason_of(request: &serde_json::Value) -> String {
    let Some(Error::NotUnderstood(reason)) = load_error(request) else { panic!("it is understood") };
    assert_eq!(run_error(request), Some(Error::NotUnderstood(reason.clone())));
    reason
}

#[test]
fn an_outcome_goes_with_its_text() {
    let holders = [
        ("/file", "file"),
        ("/config-file", "config-file"),
        ("/organisation-config-file", "organisation-config-file"),
        ("/tools/0", "tools[0]"),
    ];
    for (holder, place) in holders {
        let told = |outcome: &str, text: serde_json::Value| {
            let mut request = run_request();
            let file = request.pointer_mut(holder).unwrap();
            file["outcome"] = json!(outcome);
            file["text"] = text;
            reason_of(&request)
        };
        let words = "text, not-found, not-a-directory or failed";
        // The word is read first.
        assert_eq!(told("found", json!(7)), format!("expected {words} at `{place}.outcome`"));
        for outcome in ["text", "failed"] {
            assert_eq!(told(outcome, json!(null)), format!("expected a string at `{place}.text`"));
        }
        for outcome in ["not-found", "not-a-directory"] {
            assert_eq!(told(outcome, json!("")), format!("expected null at `{place}.text`"));
        }
    }
}

/// How the files are refused: the words of a load, and the findings of a run.
fn refusal_of(sources: &Sources) -> (String, Refusal) {
    let list = example("list.json");
    let run = resolve(&RunRequest { sources, profile: "default", mode: Mode::Test, list: &list });
    match (Config::load(sources).err(), run) {
        (Some(Error::Refused(load)), Err(Error::Refused(run))) => (load.reason, run),
        other => panic!("{other:?}"),
    }
}

#[test]
fn a_file_that_could_not_be_read_is_refused_with_its_message() {
    let message = "stream did not contain valid UTF-8";
    let mut sources = Sources::of_file("/w", "", TRIPLE);
    sources.file.outcome = ReadOutcome::Failed(message.to_owned());
    let (reason, refusal) = refusal_of(&sources);
    assert!(reason.contains("ReadError") && reason.contains(message), "{reason}");
    assert_eq!(refusal.findings.len(), 1);
    let finding = &refusal.findings[0];
    assert_eq!((finding.code.as_str(), finding.upstream.as_deref()), ("unreadable-file", Some("ReadError")));
    assert_eq!(finding.message, message);
}

#[test]
fn a_file_that_a_user_named_counts_in_place_of_the_own_one() {
    let mut sources = Sources::of_file("/w", "[profile.ci]\nretries = 1\n", TRIPLE);
    sources.config_file = Some(File::of("/named.toml", "[profile.ci]\nretries = 3\n"));
    // The outcome of the repository's own file does not matter then.
    for outcome in [sources.file.outcome.clone(), ReadOutcome::Failed("not read".to_owned())] {
        sources.file.outcome = outcome;
        let config = Config::load(&sources).unwrap();
        assert_eq!(config.profile("ci").unwrap().settings(&test_of("a", "b")).unwrap().retries.count, 3);
        let list = example("list.json");
        let run = RunRequest { sources: &sources, profile: "ci", mode: Mode::Test, list: &list };
        let document = resolve(&run).unwrap();
        let source = document.sources.last().unwrap();
        assert_eq!((source.kind, source.path.as_deref()), (SourceKind::Explicit, Some("/named.toml")));
        assert!(document.tests.iter().all(|test| test.settings["retries"].value == json!(3)));
    }
}

#[test]
fn the_file_of_an_organisation_lies_between_those_of_tools_and_the_own_one() {
    let mut sources = Sources::of_file("/w", "[profile.ci]\nfail-fast = false\n", TRIPLE);
    let named = "[test-groups.\"@org:db\"]\nmax-threads = 2\n[profile.ci]\nretries = 2\n\
        [[profile.ci.overrides]]\nfilter = 'all()'\ntest-group = \"@org:db\"\nthreads-required = 2\n";
    sources.organisation_config_file = Some(File::of("/org.toml", named));
    let tool = "[profile.ci]\nretries = 1\n\
        [[profile.ci.overrides]]\nfilter = 'all()'\nthreads-required = 1\npriority = 1\n";
    sources.tools.push(ToolFile { tool: "tool".to_owned(), file: File::of("/t.toml", tool) });
    let list = example("list.json");
    let run = RunRequest { sources: &sources, profile: "ci", mode: Mode::Test, list: &list };
    let document = resolve(&run).unwrap();
    let kinds = document.sources.iter().map(|source| source.kind).collect::<Vec<_>>();
    let expected = [SourceKind::Default, SourceKind::Tool, SourceKind::Organisation, SourceKind::Discovered];
    assert_eq!(kinds, expected);
    assert_eq!(document.sources[2].path.as_deref(), Some("/org.toml"));
    for test in &document.tests {
        let value = |key: &str| test.settings[key].value.clone();
        assert_eq!((value("retries"), value("priority")), (json!(2), json!(1)));
        assert_eq!((value("threads-required"), value("test-group")), (json!(2), json!("@org:db")));
    }
    let config = Config::load(&sources).unwrap();
    let settings = config.profile("ci").unwrap().settings(&test_of("a", "b")).unwrap();
    assert_eq!((settings.priority, settings.retries.count), (1, 2));
}

#[test]
fn a_file_may_be_missing_only_in_its_own_place() {
    let missing = [(ReadOutcome::NotFound, "no such file"), (ReadOutcome::NotADirectory, "no directory")];
    for (outcome, message) in missing {
        let mut own = Sources::of_file("/w", "", TRIPLE);
        own.file.outcome = outcome.clone();
        assert!(Config::load(&own).is_ok());
        let file = File { path: "/named.toml".to_owned(), outcome };
        let mut tool = own.clone();
        tool.tools.push(ToolFile { tool: "tool".to_owned(), file: file.clone() });
        let mut organisation = own.clone();
        organisation.organisation_config_file = Some(file.clone());
        own.config_file = Some(file);
        for sources in [own, organisation, tool] {
            let (reason, refusal) = refusal_of(&sources);
            assert!(reason.contains("/named.toml") && reason.contains(message), "{reason}");
            assert!(refusal.findings[0].message.contains(message), "{}", refusal.reason);
        }
    }
}

#[test]
fn files_are_as_the_disk_has_them() {
    let outcome = |path: &str| File::read(&format!("{ROOT}/{path}")).outcome;
    assert_eq!(outcome("list.json"), ReadOutcome::Text(example("list.json")));
    assert_eq!(outcome("no-list.json"), ReadOutcome::NotFound);
    assert_eq!(outcome("list.json/file"), ReadOutcome::NotADirectory);
    assert!(matches!(outcome(""), ReadOutcome::Failed(_)));
}

#[test]
fn bytes_that_are_no_request() {
    assert_eq!(Config::from_json(b"").err(), Some(Error::NotUnderstood("the request is not valid JSON".to_owned())));
    assert_eq!(Config::from_json(b"{").err(), Some(Error::NotUnderstood("the request is not valid JSON".to_owned())));
    assert_eq!(Config::from_json(b"\xff").err(), Some(Error::NotText));
    for bytes in [b"".as_slice(), b"{", b"[1", b"\x00"] {
        assert_eq!(resolve_json(bytes).err(), Some(Error::NotUnderstood("the request is not valid JSON".to_owned())));
    }
    assert_eq!(resolve_json(b"\xff\xfe").err(), Some(Error::NotText));
    assert_eq!(place_of(resolve_json(b"7").err()), "profile");
    assert_eq!(place_of(Config::from_json(b"{}").err()), "root");
}

/// The result of a run over the worked example.
fn answer(profile: &str, mode: Mode) -> Result<Document, Error> {
    let list = example("list.json");
    resolve(&RunRequest { sources: &real(), profile, mode, list: &list })
}

#[test]
fn a_run_tells_all_settings_of_each_test() {
    let document = answer("ci", Mode::Test).unwrap();
    assert_eq!(document.profile, "ci");
    assert_eq!(document.chain, ["ci", "default"]);
    assert_eq!((document.mode, document.host.as_str()), (Mode::Test, TRIPLE));
    assert_eq!(document.sources.last().unwrap().kind, SourceKind::Discovered);
    let test = document.tests.iter().find(|test| test.name == "smoke::whole").unwrap();
    assert_eq!((test.binary_id.as_str(), test.platform), ("api::smoke", Platform::Target));
    assert_eq!(test.settings.len(), 15);
    let priority = &test.settings["priority"];
    assert_eq!(priority.value, json!(50));
    assert_eq!(priority.origins[0].kind, OriginKind::Override);
    assert_eq!(priority.origins[0].lines, Some((50, 50)));
    assert_eq!(test.settings["test-group"].origins[0].kind, OriginKind::BuiltIn);
    assert!(test.runs.value && !test.runs.ignored);
    let arguments = &test.settings["run-extra-args"].value;
    assert!(arguments.as_array().is_some_and(|texts| texts.iter().all(|text| text.is_string())), "{arguments}");
    let benchmarks = answer("ci", Mode::Benchmark).unwrap();
    assert!(benchmarks.tests.iter().all(|test| test.settings.contains_key("bench.slow-timeout")));
}

const SCRIPTS: &str = r#"
experimental = ["setup-scripts", "wrapper-scripts"]
[scripts.setup.seed]
command = "seed"
[scripts.setup.unused]
command = "unused"
[scripts.setup.migrate]
command = "migrate"
[scripts.wrapper.sandbox]
command = "sandbox"
[[profile.default.scripts]]
filter = "kind(test)"
setup = ["migrate", "seed"]
list-wrapper = "sandbox"
"#;

#[test]
fn a_run_tells_the_scripts_of_its_list() {
    let mut sources = Sources::of_file(ROOT, SCRIPTS, TRIPLE);
    sources.metadata = Some(example("metadata.json"));
    let list = example("list.json");
    let request = RunRequest { sources: &sources, profile: "default", mode: Mode::Test, list: &list };
    let document = resolve(&request).unwrap();
    assert_eq!(document.setup_scripts, ["seed", "migrate"]);
    let wrappers: Vec<_> = document.list_wrappers.iter().map(|w| (w.binary_id.as_str(), w.value.as_str())).collect();
    assert_eq!(wrappers, [("api::smoke", "sandbox")]);
    let document = answer("ci", Mode::Test).unwrap();
    assert_eq!(document.setup_scripts, ["migrate"]);
    assert!(document.list_wrappers.is_empty());
}

/// Compares the settings of each test of `examples/real`, by a run and by an open profile.
fn agree(sources: &Sources, profile: &str, mode: Mode) {
    let list = example("list.json");
    let document = resolve(&RunRequest { sources, profile, mode, list: &list }).unwrap();
    let config = Config::load(sources).unwrap();
    let profile = config.profile(profile).unwrap();
    let list: serde_json::Value = serde_json::from_str(&list).unwrap();
    assert!(document.tests.len() > 3);
    for row in &document.tests {
        let suites = list["rust-suites"].as_object().unwrap().values();
        let suite = suites.into_iter().find(|suite| suite["binary-id"] == json!(row.binary_id)).unwrap();
        let text = |key: &str| suite[key].as_str().unwrap();
        let test = Test::named(&row.name)
            .in_binary(&row.binary_id)
            .of_target(text("kind"), text("binary-name"))
            .of_package(text("package-id"))
            .on(row.platform)
            .run_as(mode);
        assert_eq!(document.settings(row).unwrap(), profile.settings(&test).unwrap());
        assert_eq!(row.runs.value, profile.in_default_filter(&test).unwrap() && !row.runs.ignored);
    }
}

#[test]
fn a_run_and_a_session_agree() {
    let wide = format!("{FILE}{WIDE}");
    for text in [FILE, &wide, RUNNER, SCRIPTS, &example(".config/nextest.toml")] {
        let mut sources = real();
        sources.file = File::of("/w/.config/nextest.toml", text);
        let config = Config::load(&sources).unwrap();
        for profile in config.profiles().unwrap() {
            agree(&sources, &profile, Mode::Test);
            agree(&sources, &profile, Mode::Benchmark);
        }
    }
}

/// Values that the other files do not have.
const WIDE: &str = r#"
[profile.wide]
inherits = "ci"
threads-required = "num-cpus"
flaky-result = "fail"
success-output = "immediate"
slow-timeout = { period = "1m 30s", grace-period = "0s" }
bench.slow-timeout = { period = "30y", terminate-after = 1 }
junit = { path = "x.xml", report-skipped = "all", flaky-fail-status = "success", store-failure-output = false }
[[profile.wide.overrides]]
filter = "test(adds)"
retries = { backoff = "fixed", count = 4294967295, delay = "7ns", jitter = true }
failure-output = "never"
priority = 100
run-extra-args = ["", "a b", "\u00e9"]
leak-timeout = { period = "18446744073709551615s", result = "pass" }
[[profile.wide.overrides]]
filter = "test(db::)"
retries = { backoff = "exponential", count = 2, delay = "1500ms" }
[[profile.wide.overrides]]
filter = "test(smoke::)"
retries = { backoff = "fixed", count = 0, delay = "0s", jitter = true }
test-group = "net"
"#;

#[test]
fn a_run_that_is_refused_tells_its_findings() {
    let list = example("list.json");
    let ask = |text: &str, profile: &str| {
        let sources = Sources::of_file("/w", text, TRIPLE);
        resolve(&RunRequest { sources: &sources, profile, mode: Mode::Test, list: &list })
    };
    let Err(Error::Refused(refusal)) = ask("[profile.ci]\nretries = 'x'\n", "ci") else { panic!("it is refused") };
    assert_eq!(refusal.findings[0].level, Level::Error);
    assert_eq!(refusal.findings[0].path, keys(&["profile", "ci", "retries"]));
    assert_eq!(refusal.findings[0].lines, Some((2, 2)));
    // A position in an array is a step of a path, and a key with a dot stays one key.
    let Err(Error::Refused(refusal)) = ask("[[profile.'a.b'.overrides]]\nfilter = 1\n", "ci") else {
        panic!("it is refused")
    };
    let [profile, of_name, overrides, filter] = ["profile", "a.b", "overrides", "filter"].map(key);
    assert_eq!(refusal.findings[0].path, [profile, of_name, overrides, PathStep::Index(0), filter]);
    let Err(Error::NoProfile(refusal)) = ask("[profile.ci]\n", "cj") else { panic!("there is no cj") };
    assert!(refusal.reason.contains("cj"), "{}", refusal.reason);
    assert_eq!(refusal.findings.len(), 1);
    // The features are those of the request, and those that the file enables.
    let script = "[scripts.setup.db]\ncommand = 'true'\n";
    assert!(matches!(ask(script, "default"), Err(Error::Refused(_))));
    assert!(ask(&format!("experimental = ['setup-scripts']\n{script}"), "default").is_ok());
}

#[test]
fn a_run_without_engines_says_which() {
    let ask = |triple: &str, metadata: Option<&str>, list: &str| {
        let mut sources = Sources::of_file("/w", "", triple);
        sources.metadata = metadata.map(str::to_owned);
        resolve(&RunRequest { sources: &sources, profile: "default", mode: Mode::Test, list }).err().unwrap()
    };
    let list = example("list.json");
    let reason = "platform `no-such-triple`: unknown target triple";
    assert_eq!(ask("no-such-triple", None, &list), Error::NoEngines(reason.to_owned()));
    assert_eq!(ask(TRIPLE, Some("{"), &list), Error::NoEngines("the metadata is not valid JSON".to_owned()));
    let Error::NoEngines(reason) = ask(TRIPLE, None, "{}") else { panic!("it is no list") };
    assert!(reason.starts_with("no list of tests in `list`: ") && reason.contains("rust-suites"), "{reason}");
}

#[test]
fn the_library_is_of_the_version_of_its_types() {
    assert_eq!((version().as_str(), version_number()), (VERSION, VERSION_NUMBER));
    let header = fs::read_to_string(concat!(env!("CARGO_MANIFEST_DIR"), "/../../include/rinqebo.h")).unwrap();
    assert!(header.contains(&format!("#define RINQEBO_VERSION \"{VERSION}\"\n")));
    assert!(header.contains(&format!("#define RINQEBO_VERSION_NUMBER {VERSION_NUMBER}\n")));
    let parts: Vec<u32> = VERSION.split('.').map(|part| part.parse().unwrap()).collect();
    assert_eq!(parts.iter().fold(0, |number, part| number * 1000 + part), VERSION_NUMBER);
    assert_eq!(VERSION, env!("CARGO_PKG_VERSION"));
}

#[test]
fn results_are_written_as_json() {
    let document = answer("ci", Mode::Test).unwrap();
    let written = serde_json::to_string(&document).unwrap();
    assert_eq!(serde_json::from_str::<Document>(&written).unwrap(), document);
    let config = config();
    let settings = config.profile("ci").unwrap().settings(&test_of("api", "db::reads")).unwrap();
    let written = serde_json::to_value(&settings).unwrap();
    assert_eq!(written["test-group"], json!({"name": "db", "max-threads": 2}));
    assert_eq!(written["threads-required"], json!("num-test-threads"));
    assert_eq!(written["failure-output"], json!("immediate-final"));
    assert_eq!(written["slow-timeout"]["on-timeout"], json!("pass"));
}

#[test]
fn a_session_has_the_features_of_its_file() {
    let script = "[scripts.setup.db]\ncommand = 'true'\n";
    let load = |text: &str| Config::load(&Sources::of_file("/w", text, TRIPLE)).is_ok();
    assert!(!load(script));
    assert!(load(&format!("experimental = ['setup-scripts']\n{script}")));
    assert!(load(&format!("experimental = {{ setup-scripts = true }}\n{script}")));
    assert!(!load(&format!("experimental = ['wrapper-scripts']\n{script}")));
    let mut sources = Sources::of_file("/w", script, TRIPLE);
    sources.features.setup_scripts = true;
    assert!(Config::load(&sources).is_ok());
    // The file that a user named replaces the repository's own.
    let mut sources = Sources::of_file("/w", "experimental = ['setup-scripts']\n", TRIPLE);
    sources.config_file = Some(File::of("/c.toml", script));
    assert!(Config::load(&sources).is_err());
}

#[test]
fn what_a_filter_asks_for_has_to_be_given() {
    let file = "[[profile.ci.overrides]]\nfilter = 'kind(bench)'\nretries = 1\n\
                [[profile.ci.overrides]]\nfilter = 'not package(a)'\nplatform = 'cfg(windows)'\nretries = 2\n\
                [profile.named]\ndefault-filter = 'binary(x)'\n\
                [profile.close]\n[[profile.close.overrides]]\nfilter = 'binary_id(x)'\nretries = 1\n";
    let config = Config::load(&Sources::of_file("/w", file, TRIPLE)).unwrap();
    let asked = |profile: &str, test: &Test<'_>| config.profile(profile).unwrap().settings(test).err();
    let full = Test::named("t").in_binary("b").of_target("lib", "b").of_package("");
    assert_eq!(asked("ci", &full), None);
    let without_kind = Test::named("t").in_binary("b").of_target("", "b").of_package("p");
    assert_eq!(asked("ci", &without_kind), Some(Error::NotKnown));
    // The platforms of the rule that uses the package do not match.
    assert_eq!(asked("ci", &Test::named("").in_binary("").of_target("lib", "").of_package("")), None);
    assert_eq!(asked("default", &Test::named("").in_binary("").of_target("", "").of_package("")), None);
    assert_eq!(asked("named", &Test::named("t").in_binary("b").of_target("lib", "").of_package("p")), Some(Error::NotKnown));
    assert_eq!(asked("named", &full), None);
    assert_eq!(asked("close", &Test::named("t").in_binary("").of_target("lib", "b").of_package("p")), Some(Error::NotKnown));
    assert_eq!(asked("close", &full), None);
}

const RUNNER: &str = r#"
experimental = ["setup-scripts", "wrapper-scripts"]
unknown = 1
[profile.default]
test-threads = -2
status-level = "retry"
global-timeout = "1h"
[profile.ci]
inherits = "quick"
fail-fast = { max-fail = 3 }
run-extra-args = ["--show-output"]
[profile.ci.junit]
path = "junit.xml"
report-name = "all"
[profile.quick]
final-status-level = "slow"
default-filter = "not test(/^slow::/)"
[profile.default-x]
[test-groups.db]
max-threads = 2
[test-groups.net]
max-threads = "num-cpus"
[scripts.setup.seed]
command = { command-line = "bin/seed --fast 'two words'", env = { B = "2", A = "1" }, relative-to = "workspace-root" }
slow-timeout = { period = "90s", terminate-after = 2 }
leak-timeout = "100ms"
capture-stdout = true
junit = { store-success-output = false }
[scripts.setup.plain]
command = "plain"
[scripts.wrapper.box]
command = { command-line = ["debug/box", "-v"], relative-to = "target" }
target-runner = "within-wrapper"
[[profile.ci.scripts]]
filter = "test(/^boxed::/)"
run-wrapper = "box"
"#;

/// The objects of a profile of these lines.
fn runner(target: Option<&str>) -> Config {
    let mut sources = Sources::of_file("/w", RUNNER, TRIPLE);
    sources.target_directory = target.map(str::to_owned);
    Config::load(&sources).expect("the file is accepted")
}

#[test]
fn a_profile_says_what_a_run_needs() {
    let config = runner(None);
    let run = config.profile("ci").unwrap().run().unwrap();
    assert_eq!((run.profile.as_str(), run.inherits.as_deref()), ("ci", Some("quick")));
    assert_eq!((run.test_threads, run.max_fail), (GroupThreads::Count(-2), MaxFail::Count(3)));
    assert_eq!(run.global_timeout.test, Duration::from_secs(3600));
    assert_eq!((run.status_level, run.final_status_level), (StatusLevel::Retry, FinalStatusLevel::Slow));
    let junit = run.junit.as_ref().unwrap();
    assert_eq!((junit.path.as_str(), junit.report_name.as_str()), ("/w/target/nextest/ci/junit.xml", "all"));
    assert_eq!(run.store_dir, "/w/target/nextest/ci");
    assert_eq!(run.default_filter, "not test(/^slow::/)");
    assert_eq!(run.run_extra_args, ["--show-output"]);
    assert_eq!(run.profiles, ["ci", "default", "default-miri", "default-x", "quick"]);
    assert_eq!(config.profiles().unwrap(), run.profiles);
    let run = config.profile("default").unwrap().run().unwrap();
    assert_eq!((run.inherits, run.max_fail, run.junit), (None, MaxFail::Count(1), None));
    assert_eq!(run.final_status_level, FinalStatusLevel::Flaky);
    assert_eq!(run.default_filter, "all()");
    assert_eq!(config.profile("ci").unwrap().chain().unwrap(), ["ci", "quick", "default"]);
    assert_eq!(config.profile("default").unwrap().chain().unwrap(), ["default"]);
    let groups = config.groups().unwrap();
    let groups: Vec<_> = groups.iter().map(group_of).collect();
    assert_eq!(groups, [("db", GroupThreads::Count(2)), ("net", GroupThreads::NumCpus)]);
}

#[test]
fn a_profile_has_the_commands_of_its_scripts() {
    let config = runner(None);
    let profile = config.profile("ci").unwrap();
    let setup = profile.setup_scripts().unwrap();
    assert_eq!(setup.iter().map(|script| script.id.as_str()).collect::<Vec<_>>(), ["seed", "plain"]);
    let seed = &setup[0];
    assert_eq!((seed.command.program.as_str(), seed.command.relative_to), ("bin/seed", RelativeTo::WorkspaceRoot));
    assert_eq!(seed.command.args, ["--fast", "two words"]);
    let env: Vec<_> = seed.command.env.iter().map(|(key, text)| (key.as_str(), text.as_str())).collect();
    assert_eq!(env, [("A", "1"), ("B", "2")]);
    let slow = seed.slow_timeout.unwrap();
    assert_eq!((slow.period, slow.terminate_after), (Duration::from_secs(90), Some(2)));
    assert_eq!(seed.leak_timeout.unwrap().period, Duration::from_millis(100));
    assert_eq!((seed.capture_stdout, seed.capture_stderr), (true, false));
    assert!(!seed.junit.store_success_output && seed.junit.store_failure_output);
    assert_eq!((setup[1].slow_timeout, setup[1].leak_timeout), (None, None));
    let wrappers = profile.wrappers().unwrap();
    assert_eq!((wrappers[0].id.as_str(), wrappers[0].target_runner), ("box", TargetRunner::WithinWrapper));
    assert_eq!((wrappers[0].command.program.as_str(), wrappers[0].command.args.len()), ("debug/box", 1));
    let settings = profile.settings(&test_of("api", "boxed::t")).unwrap();
    assert_eq!(settings.run_wrapper.as_deref(), Some("box"));
    assert_eq!(settings.run_extra_args, ["--show-output"]);
    // With the target directory programs are joined.
    let config = runner(Some("/t"));
    let objects = config.profile("default").unwrap().objects().unwrap();
    assert_eq!(objects.setup_scripts[0].command.program, "/w/bin/seed");
    assert_eq!(objects.setup_scripts[1].command.program, "plain");
    assert_eq!(objects.wrappers[0].command.program, "/t/debug/box");
}

#[test]
fn a_session_tells_its_warnings() {
    let config = runner(None);
    let findings = config.findings().unwrap();
    let told: Vec<_> = findings.iter().map(|found| (found.code.as_str(), found.path.clone())).collect();
    assert_eq!(told, [("unknown-key", vec![]), ("reserved-profile", keys(&["profile", "default-x"]))]);
    assert!(findings.iter().all(|found| found.level == Level::Warning));
    assert_eq!(findings[0].file.as_deref(), Some("/w/.config/nextest.toml"));
    // A whole run reports the same, with places.
    let list = example("list.json");
    let sources = Sources::of_file("/w", RUNNER, TRIPLE);
    let request = RunRequest { sources: &sources, profile: "ci", mode: Mode::Test, list: &list };
    let document = resolve(&request).unwrap();
    let words = |findings: &[Finding]| -> Vec<_> {
        findings.iter().map(|found| (found.code.clone(), found.upstream.clone(), found.level)).collect()
    };
    assert_eq!(words(&findings), words(&document.findings));
    assert_eq!(document.findings[0].path, keys(&["unknown"]));
    assert_eq!(document.findings[1].path, findings[1].path);
    assert!(self::config().findings().unwrap().is_empty());
}

#[test]
fn a_run_has_the_objects_of_its_profile() {
    let list = example("list.json");
    for profile in ["ci", "quick", "default"] {
        // The list names the target directory.
        let objects = runner(Some("/w/target")).profile(profile).unwrap().objects().unwrap();
        let mut sources = Sources::of_file("/w", RUNNER, TRIPLE);
        for target in [None, Some("/t".to_owned())] {
            sources.target_directory = target;
            let request = RunRequest { sources: &sources, profile, mode: Mode::Test, list: &list };
            let mut listed = resolve(&request).unwrap().objects;
            // No rule names a setup script, and no test of the list is wrapped. A session has no list.
            for script in &mut listed.setup_scripts {
                assert_eq!(script.tests.take(), Some(Vec::new()));
            }
            assert!(listed.wrappers.is_empty());
            listed.wrappers.clone_from(&objects.wrappers);
            assert_eq!(listed, objects);
        }
    }
}

#[test]
fn a_session_says_where_its_objects_come_from() {
    let origins = runner(None).profile("ci").unwrap().objects().unwrap().origins;
    let text = |line: usize| RUNNER.lines().nth(line - 1).unwrap();
    // The line of the one origin in the file, and the profile that writes it.
    let written = |origins: &[Origin]| -> (String, Option<String>) {
        let [origin] = origins else { panic!("one origin: {origins:?}") };
        assert_eq!(origin.source, Some(1));
        (text(origin.lines.unwrap().0).to_owned(), origin.profile.clone())
    };
    let of = |profile: &str, line: &str| (line.to_owned(), Some(profile.to_owned()));
    let run = &origins.run;
    assert_eq!(written(&run.test_threads), of("default", "test-threads = -2"));
    assert_eq!(written(&run.max_fail), of("ci", "fail-fast = { max-fail = 3 }"));
    assert_eq!(written(&run.global_timeout.test), of("default", "global-timeout = \"1h\""));
    assert_eq!(written(&run.status_level), of("default", "status-level = \"retry\""));
    assert_eq!(written(&run.final_status_level), of("quick", "final-status-level = \"slow\""));
    assert_eq!(written(&run.junit.path), of("ci", "path = \"junit.xml\""));
    assert_eq!(written(&run.junit.report_name), of("ci", "report-name = \"all\""));
    assert_eq!(written(&run.inherits), of("ci", "inherits = \"quick\""));
    assert_eq!(written(&run.default_filter), of("quick", "default-filter = \"not test(/^slow::/)\""));
    assert_eq!(written(&run.run_extra_args), of("ci", "run-extra-args = [\"--show-output\"]"));
    let kinds = |origins: &[Origin]| origins.iter().map(|origin| origin.kind).collect::<Vec<_>>();
    assert_eq!(kinds(&run.store_dir), [OriginKind::DefaultTable]);
    assert_eq!(kinds(&run.global_timeout.benchmark), [OriginKind::DefaultTable]);
    assert_eq!(kinds(&origins.groups["db"]), [OriginKind::File]);
    assert_eq!(written(&origins.groups["db"]), ("max-threads = 2".to_owned(), None));
    assert_eq!(written(&origins.groups["net"]), ("max-threads = \"num-cpus\"".to_owned(), None));
    assert_eq!(origins.groups.len(), 2);
}

#[test]
fn a_session_and_a_run_count_sources_alike() {
    let list = example("list.json");
    let group = |text: &str| format!("[test-groups.\"@{text}\"]\nmax-threads = 2\n");
    let mut sources = Sources::of_file("/w", "[profile.ci]\nfail-fast = false\n", TRIPLE);
    for tool in ["first", "second"] {
        let text = group(&format!("tool:{tool}:db"));
        sources.tools.push(ToolFile { tool: tool.to_owned(), file: File::of(&format!("/{tool}.toml"), &text) });
    }
    sources.organisation_config_file = Some(File::of("/org.toml", &group("org:db")));
    let origins = |sources: &Sources| Config::load(sources).unwrap().profile("ci").unwrap().objects().unwrap().origins;
    let run = |sources: &Sources| {
        resolve(&RunRequest { sources, profile: "ci", mode: Mode::Test, list: &list }).unwrap()
    };
    let document = run(&sources);
    let found = origins(&sources);
    assert_eq!(found, document.objects.origins);
    let paths = [None, Some("/second.toml"), Some("/first.toml"), Some("/org.toml"), Some("/w/.config/nextest.toml")];
    assert_eq!(sources.paths(), paths);
    assert_eq!(document.sources.iter().map(|source| source.path.as_deref()).collect::<Vec<_>>(), paths);
    let source = |group: &str| found.groups[group][0].source.unwrap();
    assert_eq!(["@tool:second:db", "@tool:first:db", "@org:db"].map(source), [1, 2, 3]);
    assert_eq!((found.run.max_fail[0].source, found.run.max_fail[0].lines), (Some(4), Some((2, 2))));
    // The file that a user named is in place of the repository's own.
    sources.config_file = Some(File::of("/mine.toml", "[profile.ci]\n\nfail-fast = true\n"));
    let found = origins(&sources);
    assert_eq!(found, run(&sources).objects.origins);
    assert_eq!((sources.paths()[4], found.run.max_fail[0].lines), (Some("/mine.toml"), Some((3, 3))));
}

#[test]
fn a_run_joins_programs_to_the_target_directory_of_its_list() {
    let sources = Sources::of_file("/w", RUNNER, TRIPLE);
    let programs = |list: &str| -> Vec<String> {
        let request = RunRequest { sources: &sources, profile: "ci", mode: Mode::Test, list };
        let objects = resolve(&request).unwrap().objects;
        let setup = objects.setup_scripts.into_iter().map(|script| script.command.program);
        setup.chain(objects.wrappers.into_iter().map(|script| script.command.program)).collect()
    };
    // No test of these lists is wrapped.
    assert_eq!(programs(&example("list.json")), ["/w/bin/seed", "plain"]);
    assert_eq!(programs(r#"{"rust-suites":{}}"#), ["bin/seed", "plain"]);
    let suites = r#""rust-suites":{"api":{"package-name":"api","package-id":"api","binary-id":"api","binary-name":"api","kind":"lib","build-platform":"target","testcases":{"boxed::t":{"ignored":false}}}}"#;
    let with = |target: &str| programs(&format!(r#"{{"rust-build-meta":{{"target-directory":{target}}},{suites}}}"#));
    assert_eq!(with(r#""/t""#), ["/w/bin/seed", "plain", "/t/debug/box"]);
    assert_eq!(with("7"), ["bin/seed", "plain", "debug/box"]);
}

const SETUP: &str = r#"
experimental = ["setup-scripts"]
[scripts.setup.seed]
command = "seed"
[scripts.setup.idle]
command = "idle"
[scripts.setup.warm]
command = "warm"
[[profile.default.scripts]]
filter = "test(/^db::/) or binary_id(api::smoke)"
setup = ["seed"]
[[profile.ci.scripts]]
filter = "test(adds)"
setup = ["warm", "seed"]
[[profile.ci.scripts]]
platform = "cfg(windows)"
setup = ["idle"]
"#;

#[test]
fn a_run_has_the_tests_that_enable_a_setup_script() {
    let list = example("list.json");
    let sources = Sources::of_file("/w", SETUP, TRIPLE);
    let enabling = |profile: &str| -> Vec<(String, Vec<String>)> {
        let request = RunRequest { sources: &sources, profile, mode: Mode::Test, list: &list };
        let scripts = resolve(&request).unwrap().objects.setup_scripts.into_iter();
        let named = |test: &ListTest| format!("{} {}", test.binary_id, test.name);
        scripts.map(|script| (script.id, script.tests.unwrap().iter().map(named).collect())).collect()
    };
    let of = |id: &str, tests: &[&str]| (id.to_owned(), tests.iter().map(|&test| test.to_owned()).collect::<Vec<_>>());
    let smoke = ["api db::opens", "api::smoke smoke::fast", "api::smoke smoke::whole"];
    assert_eq!(enabling("default"), [of("seed", &smoke), of("idle", &[]), of("warm", &[])]);
    let seed = [smoke.as_slice(), &["core adds"]].concat();
    assert_eq!(enabling("ci"), [of("seed", &seed), of("idle", &[]), of("warm", &["core adds"])]);
    let config = Config::load(&sources).unwrap();
    let scripts = config.profile("ci").unwrap().setup_scripts().unwrap();
    assert!(scripts.iter().all(|script| script.tests.is_none()));
}

#[test]
fn objects_are_written_as_they_are_read() {
    let objects = runner(Some("/t")).profile("ci").unwrap().objects().unwrap();
    let written = serde_json::to_value(&objects).unwrap();
    assert_eq!(serde_json::from_value::<Objects>(written.clone()).unwrap(), objects);
    assert_eq!(written["run"]["test-threads"], json!(-2));
    assert_eq!(written["groups"][1], json!({"name": "net", "max-threads": "num-cpus"}));
    assert_eq!(written["setup-scripts"][0]["slow-timeout"]["period"], json!("90s"));
    assert_eq!(written["setup-scripts"][0]["tests"], json!(null));
    assert_eq!(written["origins"]["run"]["test-threads"][0]["profile"], json!("default"));
    assert_eq!(written["origins"]["groups"]["db"][0]["kind"], json!("file"));
}

#[test]
fn threads_with_a_configuration_each() {
    let runs: Vec<_> = (0..2)
        .map(|n| {
            let config = config();
            thread::spawn(move || {
                let profile = config.profile("ci").unwrap();
                let name = if n == 0 { "db::reads" } else { "quick" };
                (0..200).map(|_| profile.settings(&test_of("api", name)).unwrap().priority).last()
            })
        })
        .collect();
    let priorities: Vec<_> = runs.into_iter().map(|run| run.join().unwrap()).collect();
    assert_eq!(priorities, [Some(-5), Some(0)]);
}

#[test]
fn threads_that_share_one() {
    let config = Arc::new(Mutex::new(config()));
    let runs: Vec<_> = ["ci", "default"]
        .into_iter()
        .map(|name| {
            let config = Arc::clone(&config);
            thread::spawn(move || {
                let config = config.lock().unwrap();
                let count = config.profile(name).unwrap().settings(&test_of("api", "quick")).unwrap().retries.count;
                count
            })
        })
        .collect();
    let counts: Vec<_> = runs.into_iter().map(|run| run.join().unwrap()).collect();
    assert_eq!(counts, [4, 0]);
}
