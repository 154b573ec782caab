//! Prints the plan of a run, from the list of tests that `cargo nextest list --message-format json` prints.
//!
//!     schedule CONFIG LIST PROFILE PROCESSORS
//!
//! The tests are those that the profile's default filter matches and that the list does not mark as ignored.
//! A test starts as soon as its threads are free and its group has room, those of a higher priority first. The
//! clock is simulated: each test takes one tick. The plan begins with the values of the profile for the whole
//! run and the setup scripts that the configuration defines. A line of a test has the tick, the test, its threads and
//! its group; then the variables that its wrapper sets, and the command that runs it. No other file is opened.

use rinqebo::{Command, Config, Error, GroupThreads, Platform, Profile, RunSettings, Schedule, SetupScript, Sources};
use rinqebo::{MaxFail, Test, Threads, WrapperScript};
use serde::Deserialize;
use std::collections::BTreeMap;
use std::error::Error as StdError;
use std::{env, fs};

#[derive(Deserialize)]
#[serde(rename_all = "kebab-case")]
struct List {
    rust_build_meta: BuildMeta,
    rust_suites: BTreeMap<String, Suite>,
}

#[derive(Deserialize)]
#[serde(rename_all = "kebab-case")]
struct BuildMeta {
    target_directory: String,
}

#[derive(Deserialize)]
#[serde(rename_all = "kebab-case")]
struct Suite {
    package_id: String,
    binary_id: String,
    binary_name: String,
    binary_path: String,
    kind: String,
    build_platform: String,
    testcases: BTreeMap<String, Case>,
}

#[derive(Deserialize)]
struct Case {
    #[serde(default)]
    ignored: bool,
}

/// A test of the list, with what a scheduler needs.
struct Planned<'l> {
    suite: &'l Suite,
    name: &'l str,
    schedule: Schedule,
}

/// A test by its name, for the library.
fn test_of<'l>(suite: &'l Suite, name: &'l str) -> Test<'l> {
    Test::named(name)
        .in_binary(&suite.binary_id)
        .of_target(&suite.kind, &suite.binary_name)
        .of_package(&suite.package_id)
        .on(if suite.build_platform == "host" { Platform::Host } else { Platform::Target })
}

/// Each test that the default filter matches and that is not ignored, those of a higher priority first.
fn plan<'l>(profile: &Profile<'_>, list: &'l List) -> Result<Vec<Planned<'l>>, Error> {
    let mut planned = Vec::new();
    for suite in list.rust_suites.values() {
        for (name, case) in &suite.testcases {
            let schedule = profile.schedule(&test_of(suite, name))?;
            if schedule.in_default_filter && !case.ignored {
                planned.push(Planned { suite, name, schedule });
            }
        }
    }
    planned.sort_by_key(|test| std::cmp::Reverse(test.schedule.priority));
    Ok(planned)
}

fn count_of(threads: Threads, processors: u64) -> u64 {
    match threads {
        Threads::Count(count) => count.min(processors),
        Threads::NumCpus | Threads::NumTestThreads => processors,
    }
}

fn room_in(threads: GroupThreads, processors: u64) -> u64 {
    match threads {
        GroupThreads::Count(count) if count < 0 => processors.saturating_sub(count.unsigned_abs()).max(1),
        GroupThreads::Count(count) => count.unsigned_abs(),
        GroupThreads::NumCpus => processors,
    }
}

/// The tests that start together, taken out of those that wait.
fn next_tick<'l>(waiting: &mut Vec<Planned<'l>>, test_threads: u64, processors: u64) -> Vec<Planned<'l>> {
    let mut free = test_threads;
    let mut used = BTreeMap::new();
    let mut started = Vec::new();
    let mut left = Vec::new();
    for test in waiting.drain(..) {
        let threads = count_of(test.schedule.threads_required, test_threads);
        let full = test.schedule.group.is_some_and(|(group, limit)| {
            used.get(&group).copied().unwrap_or(0) + threads > room_in(limit, processors).max(threads)
        });
        if threads > free || full {
            left.push(test);
            continue;
        }
        free -= threads;
        if let Some((group, _)) = test.schedule.group {
            *used.entry(group).or_insert(0) += threads;
        }
        started.push(test);
    }
    *waiting = left;
    started
}

/// Variables and words, quoted for a shell as far as a plan needs it.
fn line_of(env: &BTreeMap<String, String>, words: &[String]) -> String {
    let quoted = |word: &String| if word.contains(' ') { format!("'{word}'") } else { word.clone() };
    let set = env.iter().map(|(key, text)| format!("{key}={}", quoted(text)));
    set.chain(words.iter().map(quoted)).collect::<Vec<_>>().join(" ")
}

/// The words of a command.
fn words_of(command: &Command) -> Vec<String> {
    [std::slice::from_ref(&command.program), command.args.as_slice()].concat()
}

fn print_run(run: &RunSettings, setup: &[SetupScript], processors: u64) {
    let limit = match run.max_fail {
        MaxFail::Count(count) => format!("{count} failures"),
        MaxFail::All => "the last test".to_owned(),
    };
    println!("run {}: {} threads, until {limit}", run.profile, room_in(run.test_threads, processors));
    if let Some(junit) = &run.junit {
        println!("report {}: {}", junit.report_name, junit.path);
    }
    for script in setup {
        println!("setup {}: {}", script.id, line_of(&script.command.env, &words_of(&script.command)));
    }
}

/// The command that runs a test on one line, with its variables.
fn command_line(profile: &Profile<'_>, wrappers: &[WrapperScript], test: &Planned<'_>) -> Result<String, Error> {
    let settings = profile.settings(&test_of(test.suite, test.name))?;
    let wrapper = wrappers.iter().find(|wrapper| Some(&wrapper.id) == settings.run_wrapper.as_ref());
    let mut env = wrapper.map(|wrapper| wrapper.command.env.clone()).unwrap_or_default();
    env.insert("NEXTEST".to_owned(), "1".to_owned());
    let mut words = wrapper.map(|wrapper| words_of(&wrapper.command)).unwrap_or_default();
    words.extend([test.suite.binary_path.as_str(), "--exact", test.name].map(str::to_owned));
    words.extend(settings.run_extra_args);
    Ok(line_of(&env, &words))
}

fn main() -> Result<(), Box<dyn StdError>> {
    let words: Vec<String> = env::args().skip(1).collect();
    let [config, list, profile, processors] = words.as_slice() else {
        return Err("schedule CONFIG LIST PROFILE PROCESSORS".into());
    };
    let list: List = serde_json::from_str(&fs::read_to_string(list)?)?;
    let mut sources = Sources::of_file("/w", &fs::read_to_string(config)?, "x86_64-unknown-linux-gnu");
    sources.metadata = env::var("METADATA").ok().map(fs::read_to_string).transpose()?;
    sources.target_directory = Some(list.rust_build_meta.target_directory.clone());
    let processors = processors.parse()?;
    let config = Config::load(&sources)?;
    for finding in config.findings()? {
        eprintln!("warning: {}", finding.message);
    }
    let profile = config.profile(profile)?;
    let objects = profile.objects()?;
    let test_threads = room_in(objects.run.test_threads, processors);
    print_run(&objects.run, &objects.setup_scripts, processors);
    let mut waiting = plan(&profile, &list)?;
    let mut tick = 0;
    while !waiting.is_empty() {
        for test in next_tick(&mut waiting, test_threads, processors) {
            let threads = count_of(test.schedule.threads_required, test_threads);
            let group = test.schedule.group.and_then(|(index, _)| profile.group_name(index));
            let group = group.as_deref().unwrap_or("@global");
            println!("{tick} {} {} {threads} {group}", test.suite.binary_id, test.name);
            println!("    {}", command_line(&profile, &objects.wrappers, &test)?);
        }
        tick += 1;
    }
    Ok(())
}
