//! Links the proved library, from where `./library` writes it.

use std::env;
use std::path::Path;

fn main() {
    let here = env::var("CARGO_MANIFEST_DIR").expect("set by cargo");
    let folder = Path::new(&here).join("../target/library");
    println!("cargo:rustc-link-search=native={}", folder.display());
    println!("cargo:rustc-link-lib=static=lastavon");
    let library = folder.join("liblastavon.a");
    println!("cargo:rerun-if-changed={}", library.display());
}
