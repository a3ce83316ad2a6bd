//! What the programs print: a write that fails is an error here, where `println!` and `eprintln!` panic.

use std::fmt::{self, Display};
use std::io::{self, Write};

/// Standard output could not be written.
#[derive(Debug)]
pub struct Unwritten(pub io::Error);

impl Display for Unwritten {
    fn fmt(&self, f: &mut fmt::Formatter) -> fmt::Result {
        write!(f, "the output cannot be written: {}", self.0)
    }
}

impl std::error::Error for Unwritten {}

/// Writes to standard output, as it is.
pub fn print(text: impl Display) -> Result<(), Unwritten> {
    let mut out = io::stdout().lock();
    write!(out, "{text}").and_then(|()| out.flush()).map_err(Unwritten)
}

/// Writes a line to standard error. Where that fails too, the status alone says what happened.
pub fn say(line: impl Display) {
    let _ = writeln!(io::stderr(), "{line}");
}
