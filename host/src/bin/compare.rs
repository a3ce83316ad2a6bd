//! Compares the unit with the Rust it was ported from, bit for bit.
//!
//!     compare ORACLE KIND SEED COUNT
//!
//! ORACLE is the program that runs the unchanged Rust behind a text format: `./build.sh` in the oracle's folder builds it and prints its path.
//! KIND is a call, for random accepted cases of it, or `any`, for those of any of the calls ported from the Rust; or it is `refuse`, for damaged cases of these calls.
//! `rows` and `refuse-rows` are making from normals with a row list; in `normals` each halfedge has a row of its own. `preview` and `refuse-preview` are
//! the preview of spreading, which is also held against the unit's own spreading of copies. `count` is both makings with the count of edges without
//! direction, which the other kinds do not compare. `stl` and `refuse-stl` are the reading of binary STL files. `clean` is the clean crease listing and
//! `crease2` the ported one, many of their face normals zero or nearly; `refuse-clean` is both. Of `crease` the tally is not compared, as the oracle counts
//! the edges of the Rust's listing. `curve` and `refuse-curve` are leaf calls: a point of a curve, and a list of points.
//! The status is 0 after a whole run in which nothing differs, 1 after one in which something does, and another where the run ends early.

use std::collections::BTreeMap;
use std::ffi::{OsStr, OsString};
use std::fmt;
use std::io::{self, BufReader, Write as _};
use std::panic::catch_unwind;
use std::path::Path;
use std::process::{Child, ChildStdin, Command, ExitCode, ExitStatus, Stdio};
use std::sync::mpsc::{sync_channel, Receiver, SyncSender};
use tangents_host::case::{answer, blocks, Block};
use tangents_host::output::{print, say};

const KINDS: [&str; 20] = [
    "straighten", "spread", "preview", "check", "crease", "clean", "crease2", "sharp", "normals", "rows", "count", "stl", "curve", "any", "refuse",
    "refuse-rows", "refuse-preview", "refuse-stl", "refuse-clean", "refuse-curve",
];

/// The most cases that wait for their answers. The oracle writes answers some KB at a time, hundreds of the shortest: with room for fewer
/// cases than these, both sides would wait for each other.
const WAITING: usize = 4096;

type Failure = Box<dyn std::error::Error>;

#[derive(Default)]
struct Sums {
    compared: usize,
    differ: usize,
    passed: usize,
    /// The refused cases, by operation and number.
    refusals: BTreeMap<(String, usize), usize>,
}

impl fmt::Display for Sums {
    fn fmt(&self, f: &mut fmt::Formatter) -> fmt::Result {
        write!(f, "{} compared, {} differ, {} of other calls passed over", self.compared, self.differ, self.passed)
    }
}

impl Sums {
    /// Compares the unit's answer to a case with the Rust's.
    fn compare(&mut self, case: &Block, rust: &Block) -> Result<(), Failure> {
        if !rust.answers(case) {
            return Err(format!("oracle run answers {} in place of {}", rust.name(), case.name()).into());
        }
        let unit = catch_unwind(|| answer(case)).map_err(|_| format!("compare panicked at {}", case.name()))?;
        let Some(unit) = unit else {
            self.passed += 1;
            return Ok(());
        };
        let lines = unit.unwrap_or_else(|r| {
            *self.refusals.entry((case.op().into(), r.number)).or_default() += 1;
            vec![format!("refused {} {}", r.number, r.place)]
        });
        self.compared += 1;
        if !lines.iter().all(|l| rust.has_line(l)) && !of_another_length(case, &lines, rust) {
            self.differ += 1;
            print(format_args!("differs: {}\n", case.name()))?;
        }
        Ok(())
    }

    /// The refused cases, a line for each operation and number, and the last line.
    fn report(&self, kind: &str) -> String {
        let refusals = self.refusals.iter().map(|((op, number), count)| format!("{op} refused {number}: {count}\n"));
        refusals.chain([format!("{kind}: {self}\n")]).collect()
    }
}

/// Is it a mark check, accepted, whose list of tangents ends within a tangent? The oracle leaves such an end out; in the unit another length answers yes.
fn of_another_length(case: &Block, lines: &[String], rust: &Block) -> bool {
    case.op() == "check" && case.floats("tan").len() % 4 != 0 && lines == ["valid 1"] && !rust.has("refused")
}

fn start(oracle: &OsStr, words: &[&str], input: Stdio) -> Result<Child, Failure> {
    let child = Command::new(oracle).args(words).stdin(input).stdout(Stdio::piped()).spawn();
    child.map_err(|e| format!("{}: {e}", Path::new(oracle).display()).into())
}

/// Hands each generated case to the oracle that answers it, and to `waiting`. Where either takes no more, the generator is stopped.
fn hand_on(mut generator: Child, mut to_answer: ChildStdin, waiting: SyncSender<Block>) -> io::Result<ExitStatus> {
    for case in blocks(BufReader::new(generator.stdout.take().expect("a pipe"))) {
        if to_answer.write_all(case.text().as_bytes()).is_err() || waiting.send(case).is_err() {
            generator.kill()?;
            break;
        }
    }
    generator.wait()
}

/// Compares each waiting case with the next of the oracle's answers. Is each answered?
fn compare_each(waiting: Receiver<Block>, answers: &mut impl Iterator<Item = Block>, sums: &mut Sums) -> Result<bool, Failure> {
    for case in waiting {
        match answers.next() {
            Some(rust) => sums.compare(&case, &rust)?,
            None => return Ok(false),
        }
    }
    answers.next().map_or(Ok(true), |a| Err(format!("oracle run answers {}, which was not asked", a.name()).into()))
}

/// Compares the cases that the oracle generates for these words, `count` of them: anything else is a failure.
fn compare_all(oracle: &OsStr, words: &[&str], count: usize, sums: &mut Sums) -> Result<(), Failure> {
    let generator = start(oracle, words, Stdio::null())?;
    let mut answerer = start(oracle, &["run"], Stdio::piped())?;
    let (input, output) = (answerer.stdin.take().expect("a pipe"), answerer.stdout.take().expect("a pipe"));
    let (sender, waiting) = sync_channel(WAITING);
    let handing = std::thread::spawn(move || hand_on(generator, input, sender));
    let mut answers = blocks(BufReader::new(output));
    let answered = compare_each(waiting, &mut answers, sums);
    if answered.is_err() {
        answerer.kill()?;
    }
    let status = answerer.wait()?;
    let generated = handing.join().map_err(|_| "the cases could not be read")??;
    if !answered? || !status.success() {
        return Err(format!("oracle run ended with {status}").into());
    }
    if !generated.success() || sums.compared + sums.passed != count {
        return Err(format!("oracle {} ended with {generated}", words.join(" ")).into());
    }
    Ok(())
}

fn main() -> ExitCode {
    let args: Vec<OsString> = std::env::args_os().skip(1).collect();
    let [oracle, words @ ..] = &args[..] else { return usage() };
    let words: Option<Vec<&str>> = words.iter().map(|word| word.to_str()).collect();
    let Some(&[kind, seed, number]) = words.as_deref() else { return usage() };
    let Ok(count) = number.parse() else { return usage() };
    if !KINDS.contains(&kind) {
        return usage();
    }
    let words = if kind.starts_with("refuse") { vec![kind, seed, number] } else { vec!["gen", kind, seed, number] };
    let mut sums = Sums::default();
    let compared = compare_all(oracle, &words, count, &mut sums);
    if let Err(why) = compared.and_then(|()| Ok(print(sums.report(kind))?)) {
        say(format_args!("{kind} ended early: {why}; of {count} cases {sums}"));
        return ExitCode::from(2);
    }
    ExitCode::from((sums.differ > 0) as u8)
}

fn usage() -> ExitCode {
    say(format_args!("compare ORACLE KIND SEED COUNT, where KIND is {}", KINDS.join(", ")));
    ExitCode::from(2)
}
