//! The documents that the program prints in the rows of `test_runs`, read by the types of this crate.

use rinqebo::{Diff, Document, Finding, PathStep};
use serde_json::{from_value, to_value, Value};
use std::fs;

const ROWS: &str = concat!(env!("CARGO_MANIFEST_DIR"), "/../../crates/test_runs/stdout");

/// Each document of the rows that is on a line of its own.
fn documents() -> Vec<Value> {
    let rows = fs::read_to_string(ROWS).expect("the rows");
    let lines = rows.lines().map(str::trim).filter(|line| line.starts_with('{'));
    lines.filter_map(|line| serde_json::from_str(line).ok()).collect()
}

/// The documents of a command.
fn of_command(command: &str) -> Vec<Value> {
    documents().into_iter().filter(|document| document["command"] == command).collect()
}

#[test]
fn findings_are_written_as_they_are_read() {
    let written: Vec<_> = documents().iter().filter_map(|document| document.get("findings").cloned()).collect();
    let read = |findings: &Value| from_value::<Vec<Finding>>(findings.clone()).expect("findings");
    for findings in &written {
        assert_eq!(to_value(read(findings)).expect("a value"), *findings);
    }
    let paths: Vec<_> = written.iter().flat_map(read).map(|finding| finding.path).collect();
    assert!(paths.iter().flatten().any(|step| matches!(step, PathStep::Key(_))));
    assert!(paths.iter().flatten().any(|step| matches!(step, PathStep::Index(_))));
}

#[test]
fn lists_and_diffs_are_read() {
    let (lists, diffs) = (of_command("list"), of_command("diff"));
    assert!(!lists.is_empty() && !diffs.is_empty());
    for list in lists {
        from_value::<Document>(list).expect("a list");
    }
    for diff in diffs {
        from_value::<Diff>(diff).expect("a diff");
    }
}
