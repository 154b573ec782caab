//! Filters in ordinary Rust, read and matched against many tests, and its two crates of patterns alone. It is there to
//! be compared with `test_values`.
#[path = "../../plain_program/src/filter.rs"]
mod filter;

use filter::{BuildPlatform, Filter, Test};
use globset::GlobBuilder;
use regex::Regex;
use std::io::{self, BufRead, BufWriter, Write};
use std::process::ExitCode;
use std::{env, fs};

const USAGE: &str = "usage: plain_filters read FILTERS [skip]\n       plain_filters match FILTERS NAMES\n       \
    plain_filters patterns < ROWS";

fn lines_of(path: &str) -> Result<String, String> {
    fs::read_to_string(path).map_err(|error| format!("{path}: {error}"))
}

/// How many lines of a file are filters, or how many lines it has.
fn read(path: &str, skips: bool) -> Result<(), String> {
    let text = lines_of(path)?;
    let count = text.lines().filter(|line| skips || Filter::parse(line, false).is_ok()).count();
    println!("{count}");
    Ok(())
}

/// How many filters of a file hold, over all names of another.
fn holding(filters: &str, names: &str) -> Result<(), String> {
    let text = lines_of(filters)?;
    let filters = text.lines().map(|line| Filter::parse(line, false)).collect::<Result<Vec<_>, _>>()?;
    let mut count = 0;
    for name in lines_of(names)?.lines() {
        let test = Test::new("p", name, BuildPlatform::Target);
        count += filters.iter().filter(|filter| filter.matches(&test, None)).count();
    }
    println!("{count}");
    Ok(())
}

/// Whether a pattern of this kind matches a name, if it is one.
fn matches(kind: &str, pattern: &str, name: &str) -> Option<bool> {
    match kind {
        "regex" => Regex::new(pattern).ok().map(|regex| regex.is_match(name)),
        // A name is not a path: `/` is a byte like others, which is the crate's own default.
        "glob" => GlobBuilder::new(pattern).build().ok().map(|glob| glob.compile_matcher().is_match(name)),
        _ => None,
    }
}

/// A column in which `\n`, `\r`, `\t` and `\\` are written for characters.
fn unescaped(column: &str) -> String {
    let mut text = String::new();
    let mut chars = column.chars();
    while let Some(c) = chars.next() {
        text.push(match c {
            '\\' => match chars.next() {
                Some('n') => '\n',
                Some('r') => '\r',
                Some('t') => '\t',
                other => other.unwrap_or('\\'),
            },
            c => c,
        });
    }
    text
}

/// Prints `true`, `false` or `refused` for each row of standard input: a kind, a pattern and a name, with tabs
/// between.
fn patterns() -> Result<(), String> {
    let mut out = BufWriter::new(io::stdout().lock());
    for line in io::stdin().lock().lines() {
        let line = line.map_err(|error| error.to_string())?;
        let columns: Vec<_> = line.split('\t').collect();
        let [kind, pattern, name] = columns[..] else {
            return Err(format!("no row: `{line}`"));
        };
        let said = match matches(kind, &unescaped(pattern), &unescaped(name)) {
            Some(true) => "true",
            Some(false) => "false",
            None => "refused",
        };
        writeln!(out, "{said}").map_err(|error| error.to_string())?;
    }
    out.flush().map_err(|error| error.to_string())
}

fn main() -> ExitCode {
    let words: Vec<_> = env::args().skip(1).collect();
    let words: Vec<_> = words.iter().map(String::as_str).collect();
    let done = match words[..] {
        ["read", filters] => read(filters, false),
        ["read", filters, "skip"] => read(filters, true),
        ["match", filters, names] => holding(filters, names),
        ["patterns"] => patterns(),
        _ => Err(USAGE.to_owned()),
    };
    match done {
        Ok(()) => ExitCode::SUCCESS,
        Err(message) => {
            eprintln!("error: {message}");
            ExitCode::from(2)
        }
    }
}
