//! Tells where the static library is that `tools/built library bridge` writes.

use std::env;
use std::path::Path;

fn main() {
    let arch = env::var("CARGO_CFG_TARGET_ARCH").unwrap_or_default();
    if arch != "x86_64" {
        panic!("the static library is for x86-64, and this target is {arch}");
    }
    let folder = Path::new(env!("CARGO_MANIFEST_DIR")).join("../../target/staticlib");
    let archive = folder.join("libbridge.a");
    if !archive.is_file() {
        panic!("{} is missing: hosts/rust/run builds it", archive.display());
    }
    println!("cargo:rerun-if-changed={}", archive.display());
    println!("cargo:rustc-link-search=native={}", folder.display());
    println!("cargo:rustc-link-lib=static=bridge");
}
