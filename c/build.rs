//! Names the shared library by its version, where a program keeps the name of what it is linked with.

use std::env::var;

fn main() {
    println!("cargo:rerun-if-changed=build.rs");
    if ["linux", "freebsd"].map(Ok).contains(&var("CARGO_CFG_TARGET_OS").as_deref()) {
        let [major, minor] =
            ["MAJOR", "MINOR"].map(|of| var(format!("CARGO_PKG_VERSION_{of}")).unwrap());
        println!("cargo:rustc-cdylib-link-arg=-Wl,-soname,librow_mask.so.{major}.{minor}");
    }
}
