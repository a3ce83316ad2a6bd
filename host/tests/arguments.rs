//! What the programs do with wrong arguments, with arguments that are no text, and with a full disk: a line on standard error, and no panic.
#![cfg(target_os = "linux")]

mod programs;

use programs::run;
use std::ffi::{OsStr, OsString};
use std::fs::File;
use std::os::unix::ffi::OsStrExt;
use std::process::{Command, Stdio};

const BENCH: &str = env!("CARGO_BIN_EXE_bench");
const COMPARE: &str = env!("CARGO_BIN_EXE_compare");
const CURVES: &str = env!("CARGO_BIN_EXE_curves");
const STL: &str = env!("CARGO_BIN_EXE_stl");
const LETTER: &str = concat!(env!("CARGO_MANIFEST_DIR"), "/../examples/letter.stl");

/// An oracle without cases and answers.
const SILENT: &str = "/bin/true";

/// What each write to it answers is that the disk is full.
fn full() -> Stdio {
    File::options().write(true).open("/dev/full").expect("/dev/full").into()
}

/// Errors and status of a program whose output goes to a full disk.
fn run_into_full(program: &str, words: &[&str]) -> (String, Option<i32>) {
    let out = Command::new(program).args(words).stdout(full()).output().expect("a run");
    (String::from_utf8(out.stderr).expect("text"), out.status.code())
}

/// One of the words is no text: it takes the place of the word at `at`.
fn no_text(words: &[&str], at: usize) -> Vec<OsString> {
    let mut words: Vec<OsString> = words.iter().map(OsString::from).collect();
    words[at] = OsStr::from_bytes(b"\xff9").into();
    words
}

/// Is it a line alone, with this status?
fn is_line(output: &str, errors: &str, status: Option<i32>, expected: i32) -> bool {
    output.is_empty() && errors.lines().count() == 1 && errors.ends_with('\n') && !errors.contains("panicked") && status == Some(expected)
}

#[test]
fn full_disk_is_said() {
    for program in [STL, CURVES] {
        for words in [&["--help"][..], &[LETTER], &[LETTER, "50", "--clean"]] {
            let (errors, status) = run_into_full(program, words);
            assert!(errors.starts_with("the output cannot be written: ") && is_line("", &errors, status, 1), "{program} {words:?} {errors}");
        }
    }
    let (errors, status) = run_into_full(STL, &[LETTER, "--tangents"]);
    assert!(errors.starts_with("the output cannot be written: ") && is_line("", &errors, status, 1), "{errors}");
    let (errors, status) = run_into_full(BENCH, &[SILENT, "torus", "60", "1", "1"]);
    assert!(errors.starts_with("the output cannot be written: ") && is_line("", &errors, status, 1), "{errors}");
    let (errors, status) = run_into_full(COMPARE, &[SILENT, "any", "1", "0"]);
    assert!(errors.starts_with("any ended early: the output cannot be written: ") && is_line("", &errors, status, 2), "{errors}");
}

#[test]
fn status_stays_where_errors_cannot_be_written() {
    let missing = format!("{LETTER}.none");
    for (program, words, expected) in [
        (STL, &[][..], 2),
        (STL, &[missing.as_str()], 1),
        (CURVES, &[], 2),
        (CURVES, &[missing.as_str()], 1),
        (COMPARE, &[], 2),
        (COMPARE, &[SILENT, "any", "1", "1"], 2),
        (BENCH, &[], 2),
        (BENCH, &[SILENT, "torus", "60", "1", "1"], 1),
    ] {
        let status = Command::new(program).args(words).stdout(Stdio::null()).stderr(full()).status().expect("a run");
        assert_eq!(status.code(), Some(expected), "{program} {words:?}");
    }
}

#[test]
fn help_names_every_status() {
    for program in [STL, CURVES] {
        let (output, errors, status) = run(program, &["--help"]);
        assert!(errors.is_empty() && status == Some(0));
        let words = output.split_whitespace().collect::<Vec<_>>().join(" ");
        assert!(["Status 0 says", "and status 1.", "Status 1 with another line says", "Status 2 says"].iter().all(|said| words.contains(said)));
    }
}

#[test]
fn arguments_that_are_no_text_are_wrong() {
    let words = [SILENT, "any", "1", "0"];
    assert_eq!(run(COMPARE, &words), ("any: 0 compared, 0 differ, 0 of other calls passed over\n".into(), String::new(), Some(0)));
    for at in 0..4 {
        let (output, errors, status) = run(COMPARE, &no_text(&words, at));
        // no file has that name
        let begin = if at == 0 { "any ended early: " } else { "compare ORACLE KIND" };
        assert!(errors.starts_with(begin) && is_line(&output, &errors, status, 2), "{at} {errors}");
    }
    for at in 1..6 {
        let (output, errors, status) = run(BENCH, &no_text(&[SILENT, "torus", "60", "1", "1", "curve"], at));
        assert!(errors.starts_with("bench ORACLE") && is_line(&output, &errors, status, 2), "{at} {errors}");
    }
    for program in [STL, CURVES] {
        let (output, errors, status) = run(program, &no_text(&[LETTER, "50"], 1));
        assert!(errors.contains("--help says more") && is_line(&output, &errors, status, 2), "{errors}");
        let (output, errors, status) = run(program, &no_text(&[LETTER, "50"], 0));
        assert!(errors.starts_with("the file cannot be read") && is_line(&output, &errors, status, 1), "{errors}");
    }
}

#[test]
fn wrong_arguments_of_bench_are_said() {
    for words in [
        "", "--help", "torus 60 1", "cube 60 1 1", "torus x 1 1", "torus 60 x 1", "torus 60 1 x", "torus 60 0 1", "torus 60 1 0", "torus -1 1 1",
        "torus 60 1 1 straight", "torus 60 1 1 curve cube", "mixed 60 1 1 rows", "mixed 60 1 1 stl", "mixed 60 1 1 preview apart",
    ] {
        let words: Vec<&str> = [SILENT].into_iter().chain(words.split_whitespace()).collect();
        let (output, errors, status) = run(BENCH, &words);
        assert!(errors.starts_with("bench ORACLE MESH") && is_line(&output, &errors, status, 2), "{words:?} {errors}");
    }
}

#[test]
fn failures_of_bench_are_said() {
    let failing = [(SILENT, "torus", "the oracle gives no case"), ("/bin/false", "mixed", "/bin/false ended with"), ("/no/oracle", "torus", "/no/oracle: ")];
    for (oracle, mesh, what) in failing {
        for kind in ["straighten", "preview", "curve"] {
            let (_, errors, status) = run(BENCH, &[oracle, mesh, "60", "1", "1", kind]);
            assert!(errors.starts_with(what) && is_line("", &errors, status, 1), "{errors}");
        }
    }
}
