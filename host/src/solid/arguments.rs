//! The arguments of a program that takes an STL file: `FILE [ANGLE] [--clean]`, and options of its own.

use super::Rule;
use crate::output::{print, say};
use std::error::Error;
use std::ffi::OsString;
use std::process::ExitCode;

pub struct Arguments {
    pub file: OsString,
    /// In degrees.
    pub angle: f64,
    pub rule: Rule,
    options: Vec<OsString>,
}

impl Arguments {
    /// The arguments, or `None` where they are wrong. `own` are the options that the program has beside `--clean`.
    fn of(words: impl Iterator<Item = OsString>, own: &[&str]) -> Option<Arguments> {
        let (options, others): (Vec<_>, Vec<_>) = words.partition(|word| word.to_string_lossy().starts_with("--"));
        let mut others = others.into_iter();
        let (file, angle) = (others.next()?, others.next());
        let angle = angle.map_or(Some(30.0), |word| word.to_str()?.parse().ok()).filter(|angle: &f64| angle.is_finite())?;
        let rule = if options.iter().any(|option| option == "--clean") { Rule::Clean } else { Rule::Ported };
        let known = |option: &OsString| option == "--clean" || own.iter().any(|name| option == name);
        (others.next().is_none() && options.iter().all(known)).then_some(Arguments { file, angle, rule, options })
    }

    pub fn has(&self, name: &str) -> bool {
        self.options.iter().any(|option| option == name)
    }
}

/// A program of this usage, which begins with its name: prints its help, or runs on its arguments. The status is 1 where that fails, and 2 where the
/// arguments are wrong.
pub fn start(usage: &str, help: &str, own: &[&str], run: impl FnOnce(&Arguments) -> Result<(), Box<dyn Error>>) -> ExitCode {
    let words: Vec<OsString> = std::env::args_os().skip(1).collect();
    let done = if words == ["--help"] {
        print(format_args!("{usage}\n{help}")).map_err(Into::into)
    } else if let Some(arguments) = Arguments::of(words.into_iter(), own) {
        run(&arguments)
    } else {
        let name = usage.split(' ').next().unwrap_or_default();
        say(format_args!("{usage}, where ANGLE is a number of degrees; {name} --help says more"));
        return ExitCode::from(2);
    };
    match done {
        Ok(()) => ExitCode::SUCCESS,
        Err(failure) => {
            say(failure);
            ExitCode::from(1)
        }
    }
}
