//! Links the peers that are asked for.

use std::env;
use std::fs;
use std::process::Command;

fn main() {
    println!("cargo::rerun-if-changed=build.rs");
    if env::var_os("CARGO_FEATURE_ROARING").is_some() {
        println!("cargo::rustc-link-lib=roaring");
    }
    if env::var_os("CARGO_FEATURE_FIXEDBITSET").is_some() {
        build_fixedbitset();
    }
}

/// What the package of a peer says.
fn version(source: &str) -> String {
    let package = fs::read_to_string(format!("{source}/Cargo.toml")).unwrap_or_default();
    let said = package.lines().find_map(|line| line.strip_prefix("version = "));
    said.unwrap_or("of no version").trim_matches('"').to_string()
}

/// Compiles the source that Debian's `librust-fixedbitset-dev` installs, with all that the compiler is told of the
/// processor: a dependency in `Cargo.toml`, even an optional one, would ask a registry for it at every build.
fn build_fixedbitset() {
    println!("cargo::rerun-if-env-changed=FIXEDBITSET");
    let Ok(source) = env::var("FIXEDBITSET") else {
        println!("cargo::error=set FIXEDBITSET to the folder of the crate fixedbitset");
        return;
    };
    let out = env::var("OUT_DIR").expect("cargo sets OUT_DIR");
    let flags = env::var("CARGO_ENCODED_RUSTFLAGS").unwrap_or_default();
    let done = Command::new(env::var("RUSTC").expect("cargo sets RUSTC"))
        .args(["--crate-name", "fixedbitset", "--crate-type", "rlib", "--edition", "2018"])
        .args([
            "-C",
            "opt-level=3",
            "--cap-lints",
            "allow",
            "--cfg",
            "feature=\"std\"",
            "--out-dir",
            &out,
        ])
        .args(flags.split('\u{1f}').filter(|flag| !flag.is_empty()))
        .arg(format!("{source}/src/lib.rs"))
        .status()
        .is_ok_and(|status| status.success());
    if !done {
        println!("cargo::error={source} does not compile");
    }
    println!("cargo::rustc-link-search=crate={out}");
    println!("cargo::rustc-env=FIXEDBITSET_VERSION={}", version(&source));
}
