//! Lists of tests, as `cargo nextest list --message-format json` prints them, and what rules give to each test.
use crate::config::CONFIG_PATH;
use crate::filter::{BuildPlatform, Test};
use crate::settings::{Query, Setting, Used};
use serde::Deserialize;
use std::collections::BTreeMap;
use std::io::{self, BufWriter, Write};

#[derive(Deserialize)]
#[serde(rename_all = "kebab-case")]
pub struct List {
    rust_suites: BTreeMap<String, Suite>,
}

#[derive(Deserialize)]
#[serde(rename_all = "kebab-case")]
struct Suite {
    package_name: String,
    binary_id: String,
    binary_name: String,
    kind: String,
    build_platform: BuiltFor,
    testcases: BTreeMap<String, Case>,
}

#[derive(Clone, Copy, Deserialize)]
#[serde(rename_all = "kebab-case")]
enum BuiltFor {
    Host,
    Target,
}

#[derive(Deserialize)]
struct Case {
    #[serde(default)]
    ignored: bool,
}

impl Suite {
    fn test<'a>(&'a self, name: &'a str) -> Test<'a> {
        Test {
            binary_id: &self.binary_id,
            package: &self.package_name,
            kind: &self.kind,
            binary: &self.binary_name,
            name,
            platform: match self.build_platform {
                BuiltFor::Host => BuildPlatform::Host,
                BuiltFor::Target => BuildPlatform::Target,
            },
        }
    }
}

fn write_test(query: &Query, test: &Test, ignored: bool, used: &mut Used, out: &mut impl Write) -> io::Result<()> {
    writeln!(out, "{} {}", test.binary_id, test.name)?;
    if ignored || !query.selects(test) {
        writeln!(out, "    runs = false")?;
    }
    let answers = query.decided(test, used);
    let rows: Vec<_> = Setting::ALL.iter().filter_map(|setting| Some((setting.key(), answers[*setting as usize].as_ref()?))).collect();
    let width = rows.iter().map(|(key, _)| key.len()).max().unwrap_or(0);
    for (key, (value, origin)) in rows {
        writeln!(out, "    {key:width$} = {}  # {origin}", value.to_string())?;
    }
    Ok(())
}

/// Writes what rules give to each test, and the rules that hold for none.
pub fn write_list(query: &Query, list: &List) -> io::Result<()> {
    let mut out = BufWriter::new(io::stdout().lock());
    writeln!(out, "# profile {}, test", query.chain.join(" < "))?;
    let mut used = Used::default();
    let mut count = 0;
    for suite in list.rust_suites.values() {
        for (name, case) in &suite.testcases {
            write_test(query, &suite.test(name), case.ignored, &mut used, &mut out)?;
            count += 1;
        }
    }
    writeln!(out, "tests: {count}")?;
    for (kind, used) in [("overrides", &used.overrides), ("scripts", &used.scripts)] {
        for (name, rules) in query.chain.iter().zip(used) {
            for (index, _) in rules.iter().enumerate().filter(|(_, used)| !**used) {
                writeln!(out, "unused: {CONFIG_PATH} profile.{name}.{kind}.{index}")?;
            }
        }
    }
    out.flush()
}
