//! Printing for programs whose reader may go away.

use std::io::{IsTerminal, Write};

/// To standard output; ends the program with 2 once nobody reads it.
pub fn print(text: &str) {
    if std::io::stdout().write_all(text.as_bytes()).is_err() {
        std::process::exit(2);
    }
}

/// What is done of all, on standard error: one line rewritten, or one in ten parts.
pub fn progress(line: &str, before: usize, done: usize, all: usize) {
    let mut err = std::io::stderr();
    if err.is_terminal() {
        let end = if done == all { "\n" } else { "" };
        let _ = write!(err, "\r{line}{end}");
    } else if done == all || (done * 10 / all) > (before * 10 / all) {
        let _ = writeln!(err, "{line}");
    }
}
