//! Links the proved library, and the heap functions of the kit that it calls.
//!
//! `RINQEBO_LIBRARY` names the folder of `librinqebo_c.a`, and `RINQEBO_HEAP` the archive of the heap
//! functions. `scripts/try-bindings` sets both.

use std::env;
use std::path::PathBuf;

fn named(variable: &str) -> PathBuf {
    println!("cargo:rerun-if-env-changed={variable}");
    PathBuf::from(env::var(variable).unwrap_or_else(|_| panic!("set {variable}, as scripts/try-bindings does")))
}

fn main() {
    let library = named("RINQEBO_LIBRARY");
    let heap = named("RINQEBO_HEAP");
    let heap_folder = heap.parent().expect("the archive lies in a folder");
    let heap_name = heap.file_stem().and_then(|name| name.to_str()).and_then(|name| name.strip_prefix("lib"));
    println!("cargo:rustc-link-search=native={}", library.display());
    println!("cargo:rustc-link-search=native={}", heap_folder.display());
    // In this order: the library calls the heap functions.
    println!("cargo:rustc-link-lib=static=rinqebo_c");
    println!("cargo:rustc-link-lib=static={}", heap_name.expect("the archive is named lib..a"));
    println!("cargo:rerun-if-changed={}", library.join("librinqebo_c.a").display());
}
