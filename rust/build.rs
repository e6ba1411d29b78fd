//! Links the archive of the proved functions.

use std::path::Path;
use std::process::exit;

fn main() {
    let folder = Path::new(env!("CARGO_MANIFEST_DIR")).join("../crates/unit_c/out");
    let archive = folder.join("libunit_c.a");
    println!("cargo:rerun-if-changed={}", archive.display());
    if !archive.exists() {
        eprintln!("crates/unit_c/out/libunit_c.a is missing: `rt lib` in crates/unit_c builds it");
        exit(1);
    }
    println!("cargo:rustc-link-search=native={}", folder.display());
    println!("cargo:rustc-link-lib=static=unit_c");
}
