//! Reads the header, and builds the C programs of the tests with it.

use std::path::{Path, PathBuf};
use std::process::Command;

/// Text with every stretch of blanks and line ends as one blank.
pub fn on_one_line(text: &str) -> String {
    text.split_whitespace().collect::<Vec<&str>>().join(" ")
}

/// The header without its comments, on one line.
pub fn header() -> String {
    let path = Path::new(env!("CARGO_MANIFEST_DIR")).join("../../include/transput.h");
    let text = std::fs::read_to_string(path).expect("the header can be read");
    let after_comments = text.split("/*").filter_map(|part| part.split_once("*/"));
    let code: String = after_comments.map(|(_, code)| code).collect();
    on_one_line(&code)
}

/// Builds tests/c/NAME.c with no warnings, linked with the archive, in the directory that cargo keeps for tests.
pub fn compile(name: &str) -> PathBuf {
    let manifest = Path::new(env!("CARGO_MANIFEST_DIR"));
    let program = Path::new(env!("CARGO_TARGET_TMPDIR")).join(name);
    let output = Command::new("gcc")
        .args([
            "-std=c11",
            "-Wall",
            "-Wextra",
            "-Werror",
            "-pedantic",
            "-O1",
        ])
        .arg("-I")
        .arg(manifest.join("../../include"))
        .arg(manifest.join("tests/c").join(name).with_extension("c"))
        .arg(env!("TRANSPUT_ARCHIVE"))
        .arg("-o")
        .arg(&program)
        .output()
        .expect("gcc can be run");
    let said = String::from_utf8_lossy(&output.stderr);
    assert!(output.status.success(), "gcc on {name}.c:\n{said}");
    program
}

/// The names in a text that begin so, each once and in order.
pub fn names_with_prefix(text: &str, prefix: &str) -> Vec<String> {
    let is_letter = |letter: char| letter.is_ascii_alphanumeric() || letter == '_';
    let words = text.split(|letter: char| !is_letter(letter));
    let mut names: Vec<String> = words
        .filter(|word| word.starts_with(prefix))
        .map(str::to_string)
        .collect();
    names.sort();
    names.dedup();
    names
}
