//! Links the proved archive, from where `./library` writes it or from the folder that LASTAVON_LIBRARY names.

use std::env;
use std::path::{Path, PathBuf};
use std::process::exit;

const NAMED: &str = "LASTAVON_LIBRARY";

fn main() {
    println!("cargo:rerun-if-env-changed={NAMED}");
    let folder = folder();
    let archive = folder.join("liblastavon.a");
    println!("cargo:rerun-if-changed={}", archive.display());
    if !archive.is_file() {
        eprintln!("There is no {}.", archive.display());
        eprintln!("Run ./library first, or name the folder that has liblastavon.a in {NAMED}.");
        exit(1);
    }
    println!("cargo:rustc-link-search=native={}", folder.display());
    println!("cargo:rustc-link-lib=static=lastavon");
}

/// A relative path is taken from this crate's folder, since a build script does not know where cargo was called.
fn folder() -> PathBuf {
    let here = env::var("CARGO_MANIFEST_DIR").expect("set by cargo");
    let named = env::var_os(NAMED).unwrap_or_else(|| "../target/library".into());
    Path::new(&here).join(named)
}
