//! What changes between two runs, through the safe types.

use rinqebo::{diff, diff_json, Diff, DiffError, DiffOptions, Error, Mode, OriginKind, RunRequest, SideName, Sources};
use serde_json::{json, Value};
use std::fs;

const TRIPLE: &str = "x86_64-unknown-linux-gnu";

const ROOT: &str = concat!(env!("CARGO_MANIFEST_DIR"), "/../../examples/real");

/// A file of `examples/real`.
fn example(path: &str) -> String {
    fs::read_to_string(format!("{ROOT}/{path}")).expect("an example")
}

/// A side: the text of a file, the name of a profile, and a list.
type Side<'a> = (&'a str, &'a str, &'a str);

/// What changes between two sides, over the metadata of `examples/real`.
fn compare(from: Side<'_>, to: Side<'_>, options: &DiffOptions) -> Result<Diff, DiffError> {
    let sources = |text: &str| {
        let mut sources = Sources::of_file(ROOT, text, TRIPLE);
        sources.metadata = Some(example("metadata.json"));
        sources
    };
    let (older, newer) = (sources(from.0), sources(to.0));
    diff(
        &RunRequest { sources: &older, profile: from.1, mode: Mode::Test, list: from.2 },
        &RunRequest { sources: &newer, profile: to.1, mode: Mode::Test, list: to.2 },
        options,
    )
}

fn with_origins() -> DiffOptions {
    let mut options = DiffOptions::default();
    options.with_origins = true;
    options
}

#[test]
fn a_diff_has_each_change_with_its_tests() {
    let (older, newer, list) = (example("older.toml"), example(".config/nextest.toml"), example("list.json"));
    let found = compare((&older, "ci", &list), (&newer, "ci", &list), &DiffOptions::default()).unwrap();
    assert!(!found.is_empty());
    assert_eq!((found.compared, found.changed), (5, 1));
    let [change] = found.changes.as_slice() else { panic!("{:?}", found.changes) };
    assert_eq!((change.from.key.as_str(), change.to.key.as_str()), ("priority", "priority"));
    assert_eq!((&change.from.value, &change.to.value), (&json!(0), &json!(50)));
    assert_eq!(change.from.origins[0].kind, OriginKind::BuiltIn);
    assert_eq!((change.to.origins[0].kind, change.to.origins[0].index), (OriginKind::Override, Some(1)));
    let [test] = change.tests.as_slice() else { panic!("{:?}", change.tests) };
    assert_eq!((test.binary_id.as_str(), test.name.as_str()), ("api::smoke", "smoke::whole"));
    assert!(found.run.is_empty() && found.removed.is_empty() && found.added.is_empty());
    assert_eq!((found.from.profile.as_str(), found.to.chain.as_slice()), ("ci", &["ci".into(), "default".into()][..]));
    // It is written as it is read.
    let written = serde_json::to_string(&found).unwrap();
    assert_eq!(serde_json::from_str::<Diff>(&written).unwrap(), found);
    // From the other side it is the same, with its sides swapped.
    let back = compare((&newer, "ci", &list), (&older, "ci", &list), &DiffOptions::default()).unwrap();
    assert_eq!((&back.changes[0].from, &back.changes[0].to), (&change.to, &change.from));
}

#[test]
fn nothing_changes_between_equal_runs() {
    let (file, list) = (example(".config/nextest.toml"), example("list.json"));
    let side = (file.as_str(), "ci", list.as_str());
    for options in [DiffOptions::default(), with_origins()] {
        let found = compare(side, side, &options).unwrap();
        assert!(found.is_empty(), "{found:?}");
        assert_eq!((found.compared, found.changed), (5, 0));
    }
}

#[test]
fn origins_are_compared_on_request() {
    let list = example("list.json");
    let (one, other) = ("[profile.ci]\n", "[profile.ci]\nretries = 0\n");
    let compare = |options| compare((one, "ci", &list), (other, "ci", &list), &options).unwrap();
    assert!(compare(DiffOptions::default()).is_empty());
    let found = compare(with_origins());
    let [change] = found.changes.as_slice() else { panic!("{:?}", found.changes) };
    assert_eq!((change.from.key.as_str(), &change.from.value), ("retries", &change.to.value));
    assert_eq!(change.to.origins[0].kind, OriginKind::Profile);
    assert_eq!(change.tests.len(), 5);
}

#[test]
fn tests_of_one_list_alone_are_added_or_removed() {
    let list = example("list.json");
    let mut listed: Value = serde_json::from_str(&list).unwrap();
    let tests = &mut listed["rust-suites"]["api::smoke"]["testcases"];
    tests.as_object_mut().unwrap().remove("smoke::whole").expect("a test");
    let (shorter, file) = (listed.to_string(), example(".config/nextest.toml"));
    let (whole, part) = ((file.as_str(), "ci", list.as_str()), (file.as_str(), "ci", shorter.as_str()));
    let found = compare(whole, part, &DiffOptions::default()).unwrap();
    assert_eq!((found.compared, found.changed, found.added.len()), (4, 0, 0));
    assert_eq!(found.removed[0].name, "smoke::whole");
    assert!(!found.is_empty());
    let back = compare(part, whole, &DiffOptions::default()).unwrap();
    assert_eq!((back.added, back.removed), (found.removed, found.added));
}

#[test]
fn what_changes_for_the_whole_run_is_listed() {
    let list = example("list.json");
    let (one, other) = ("[test-groups.db]\nmax-threads = 1\n", "[test-groups.db]\nmax-threads = 2\n");
    let found = compare((one, "default", &list), (other, "default", &list), &DiffOptions::default()).unwrap();
    let [change] = found.run.as_slice() else { panic!("{:?}", found.run) };
    assert_eq!((&change.from.value, &change.to.value), (&json!(1), &json!(2)));
    assert_eq!((change.from.key.as_str(), change.to.origins[0].kind), (change.to.key.as_str(), OriginKind::File));
    assert_eq!(found.changed, 0);
}

#[test]
fn an_error_says_which_side_has_no_result() {
    let list = example("list.json");
    let fails = |from: Side<'_>, to: Side<'_>| compare(from, to, &DiffOptions::default()).unwrap_err();
    let (file, faulty) = ("[profile.ci]\n", "[profile.ci]\nretries = 'x'\n");
    let (fine, refused) = ((file, "ci", list.as_str()), (faulty, "ci", list.as_str()));
    let failure = fails(refused, fine);
    let Error::Refused(refusal) = &failure.error else { panic!("{failure:?}") };
    assert_eq!((failure.side, refusal.findings[0].lines), (Some(SideName::From), Some((2, 2))));
    assert!(failure.to_string().starts_with("no result for the left side (`from`): "), "{failure}");
    let failure = fails(fine, refused);
    assert!(matches!(failure.error, Error::Refused(_)) && failure.side == Some(SideName::To));
    assert_eq!(fails(refused, refused).side, Some(SideName::From));
    let failure = fails(fine, (file, "cj", &list));
    assert!(matches!(failure.error, Error::NoProfile(_)) && failure.side == Some(SideName::To));
    let failure = fails((file, "ci", "{}"), fine);
    assert!(matches!(failure.error, Error::NoEngines(_)) && failure.side == Some(SideName::From));
    let of_json = |from: &[u8], to: &[u8]| diff_json(from, to, &DiffOptions::default()).unwrap_err();
    assert_eq!(of_json(b"\xff", b"{").side, Some(SideName::From));
    assert_eq!(of_json(b"\xff", b"{").error, Error::NotText);
    assert!(matches!(of_json(b"{", b"\xff").error, Error::NotUnderstood(_)));
}
