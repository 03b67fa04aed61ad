//! Links the proved archive, libtransput.a, from the directory that TRANSPUT_LIBRARY names. A relative directory is taken from the
//! manifest's; the default is the repository's target/staticlib.

use std::path::PathBuf;
use std::process::ExitCode;

fn main() -> ExitCode {
    let manifest = PathBuf::from(std::env::var_os("CARGO_MANIFEST_DIR").unwrap_or_default());
    let named = std::env::var_os("TRANSPUT_LIBRARY").filter(|name| !name.is_empty());
    let library = manifest.join(named.unwrap_or_else(|| "../../target/staticlib".into()));
    let archive = library.join("libtransput.a");
    println!("cargo:rerun-if-env-changed=TRANSPUT_LIBRARY");
    println!("cargo:rerun-if-changed={}", archive.display());
    if !archive.is_file() {
        eprintln!("there is no archive {}: build it first", archive.display());
        return ExitCode::FAILURE;
    }
    println!("cargo:rustc-link-search=native={}", library.display());
    println!("cargo:rustc-link-lib=static=transput");
    // The tests link C programs with the same archive.
    println!("cargo:rustc-env=TRANSPUT_ARCHIVE={}", archive.display());
    ExitCode::SUCCESS
}
