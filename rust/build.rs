//! Links the archive that scripts/archive builds for this machine.

use std::env;
use std::path::PathBuf;

fn main() {
    println!("cargo:rerun-if-env-changed=SHOLAKPITE_LIB");
    let package = PathBuf::from(env::var("CARGO_MANIFEST_DIR").expect("cargo sets it"));
    let folder = env::var("SHOLAKPITE_LIB")
        .map(PathBuf::from)
        .unwrap_or_else(|_| package.join("../target/staticlib"));
    println!("cargo:rustc-link-search=native={}", folder.display());
    println!("cargo:rustc-link-lib=static=sholakpite");
    println!(
        "cargo:rerun-if-changed={}",
        folder.join("libsholakpite.a").display()
    );
}
