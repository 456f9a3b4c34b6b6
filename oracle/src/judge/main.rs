//! The judge: `judge SESSIONS OURS RUST` compares two files of answers to the
//! same sessions. OURS is the port's (or the reference's), RUST the oracle's.
//! Ends with 1 if anything differed otherwise than by a name that is claimed, or, where
//! the Rust has no such parameter, from what 01 says.

use comparing::out;
use comparing::session::{sessions, Session};
use comparing::summary::Summary;
use comparing::verdict::judge;

/// The lines of a file that answer this session's calls; a missing one is empty.
fn answers(session: &Session, lines: &[&str]) -> Vec<String> {
    session.lines.iter().map(|i| lines.get(*i).unwrap_or(&"").to_string()).collect()
}

fn main() {
    let files: Vec<String> = std::env::args().skip(1).collect();
    if files.len() != 3 {
        eprintln!("judge SESSIONS OURS RUST");
        std::process::exit(2);
    }
    let read = |i: usize| std::fs::read_to_string(&files[i]).expect("a file that can be read");
    let (text, ours, rust) = (read(0), read(1), read(2));
    let (ours, rust): (Vec<&str>, Vec<&str>) = (ours.lines().collect(), rust.lines().collect());
    let mut summary = Summary::default();
    let mut apart = 0;
    for session in sessions(&text) {
        let verdict = judge(&session, &answers(&session, &ours), &answers(&session, &rust));
        if let Some((i, fields)) = &verdict.otherwise {
            let line = session.lines[*i] + 1;
            out::print(&format!("line {line} differed otherwise: {fields}\n"));
        }
        if let Some(i) = verdict.not_01.filter(|_| !session.has_rust()) {
            out::print(&format!("line {} is not what 01 says\n", session.lines[i] + 1));
            apart += 1;
        }
        summary.add(&session, &verdict);
    }
    out::print(&summary.to_string());
    std::process::exit(i32::from(summary.otherwise + apart > 0));
}
