//! Hands the plain checkers' padding to the build, and the earlier library if there is one.

use std::env;

fn main() {
    println!("cargo::rerun-if-changed=build.rs");
    pass_padding("BENCH_PAD_PLAIN");
    link_before("BENCH_BEFORE");
}

/// Passes a number of bytes on to `env!`; a build that names none has no padding.
fn pass_padding(name: &str) {
    println!("cargo::rerun-if-env-changed={name}");
    let text = env::var(name).unwrap_or_else(|_| "0".to_string());
    let bytes: u32 = text.parse().expect("a padding is a whole number of bytes");
    println!("cargo::rustc-env={name}={bytes}");
}

/// Links the earlier library in the folder named, whose functions have `before_` in front of their names.
fn link_before(name: &str) {
    println!("cargo::rerun-if-env-changed={name}");
    println!("cargo::rustc-check-cfg=cfg(before)");
    if let Ok(folder) = env::var(name) {
        println!("cargo::rustc-cfg=before");
        println!("cargo::rustc-link-search=native={folder}");
        println!("cargo::rustc-link-lib=static=before");
        println!("cargo::rerun-if-changed={folder}/libbefore.a");
    }
}
