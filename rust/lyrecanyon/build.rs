//! Finds the proved library, `liblyrecanyon.a`: in the folder that LYRECANYON_LIB names, else where `tests/prove library` writes it.

use std::env;
use std::path::PathBuf;

fn main() {
    let written = || PathBuf::from(env!("CARGO_MANIFEST_DIR")).join("../../target/staticlib");
    let folder = env::var_os("LYRECANYON_LIB").map_or_else(written, PathBuf::from);
    let library = folder.join("liblyrecanyon.a");
    println!("cargo:rerun-if-env-changed=LYRECANYON_LIB");
    println!("cargo:rerun-if-changed={}", library.display());
    if env::var("CARGO_CFG_TARGET_ARCH").as_deref() != Ok("x86_64") {
        panic!("the library is compiled for x86-64: build with --target x86_64-unknown-linux-gnu");
    }
    if !library.exists() {
        panic!("no {}: make it by `tests/prove library`, or name its folder in LYRECANYON_LIB", library.display());
    }
    println!("cargo:rustc-link-search=native={}", folder.display());
    println!("cargo:rustc-link-lib=static=lyrecanyon");
}
