//! Finds libplanner.a and has it linked in.

use std::env;
use std::path::{Path, PathBuf};

/// A relative folder is meant from the project's root, two folders up.
fn library_folder() -> PathBuf {
    let named = env::var_os("PLANNER_LIB_DIR").unwrap_or("target/staticlib".into());
    Path::new(env!("CARGO_MANIFEST_DIR"))
        .join("../..")
        .join(named)
}

fn main() {
    let folder = library_folder();
    let library = folder.join("libplanner.a");
    println!("cargo::rerun-if-env-changed=PLANNER_LIB_DIR");
    println!("cargo::rerun-if-changed={}", library.display());
    println!("cargo::rustc-env=PLANNER_LIBRARY={}", library.display());
    println!("cargo::rustc-link-search=native={}", folder.display());
    println!("cargo::rustc-link-lib=static=planner");
    if !library.exists() {
        println!(
            "cargo::error={} is missing, see PLANNER_LIB_DIR",
            library.display()
        );
    }
}
