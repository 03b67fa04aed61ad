//! Links the proved library, libtransput.a.

use std::path::{Path, PathBuf};

fn main() {
    let beside = Path::new(env!("CARGO_MANIFEST_DIR")).join("../target/staticlib");
    let folder = std::env::var_os("TRANSPUT_LIBRARY").map_or(beside, PathBuf::from);
    println!("cargo:rerun-if-env-changed=TRANSPUT_LIBRARY");
    println!(
        "cargo:rerun-if-changed={}",
        folder.join("libtransput.a").display()
    );
    println!("cargo:rustc-link-search=native={}", folder.display());
    println!("cargo:rustc-link-lib=static=transput");
}
