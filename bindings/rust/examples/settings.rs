//! Prints the value of a setting for each test of a list, by one call.
//!
//!     settings CONFIG LIST PROFILE KEY
//!
//! LIST is a file with the output of `cargo nextest list --message-format json`, and the variable `METADATA` may name
//! one with the output of `cargo metadata`.

use rinqebo::{resolve, Mode, RunRequest, Sources};
use std::error::Error;
use std::{env, fs};

fn main() -> Result<(), Box<dyn Error>> {
    let words: Vec<String> = env::args().skip(1).collect();
    let [config, list, profile, key] = words.as_slice() else {
        return Err("settings CONFIG LIST PROFILE KEY".into());
    };
    let mut sources = Sources::of_file("/w", &fs::read_to_string(config)?, "x86_64-unknown-linux-gnu");
    sources.metadata = env::var("METADATA").ok().map(fs::read_to_string).transpose()?;
    let list = fs::read_to_string(list)?;
    let document = resolve(&RunRequest { sources: &sources, profile, mode: Mode::Test, list: &list })?;
    for test in &document.tests {
        println!("{} {}: {}", test.binary_id, test.name, test.settings[key].value);
    }
    Ok(())
}
