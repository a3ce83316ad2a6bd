//! Runs of the programs.

use std::ffi::OsStr;
use std::process::Command;

/// Output, errors and status of a program.
pub fn run(program: &str, words: &[impl AsRef<OsStr>]) -> (String, String, Option<i32>) {
    let out = Command::new(program).args(words).output().expect("a run");
    let text = |bytes| String::from_utf8(bytes).expect("text");
    (text(out.stdout), text(out.stderr), out.status.code())
}
