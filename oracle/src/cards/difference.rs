//! A file that is answered otherwise: a small session that shows it, and its print.

use crate::batch::{before, Asked};
use comparing::session::Session;
use comparing::side::Side;
use comparing::smaller::smaller;
use reference::session::{write_call, Call};

/// Smaller sessions played in one go, and how much is shown of a line.
const AT_ONCE: usize = 25;
const SHOWN: usize = 1_000;

/// The first of these sessions that is answered otherwise, with its answers.
fn first(port: &Side, sessions: Vec<Session>) -> Option<(Session, Vec<String>)> {
    let answers = port.answers(&sessions);
    sessions.into_iter().zip(answers).find(|(session, answers)| session.answers != *answers)
}

/// The file alone behind what stands before a batch's first, made smaller as long as it is
/// answered otherwise; none if it is not, or cannot be read.
fn shrunk(port: &Side, asked: &Asked) -> Option<(Session, Vec<String>)> {
    let load = Call::Load(asked.case.load.clone());
    let calls = [before(), vec![load, Call::State, Call::Save]].concat();
    let session = |calls: &Vec<Call>| Session::new("", calls.clone());
    let whole = vec![session(&calls)].into_iter().filter(|_| asked.answers[0] != "unread");
    let mut best = first(port, whole.collect())?;
    loop {
        let tried = smaller(&best.0.calls);
        let mut some = tried.chunks(AT_ONCE).map(|some| some.iter().map(session).collect());
        match some.find_map(|some| first(port, some)) {
            Some(found) => best = found,
            None => return Some(best),
        }
    }
}

fn short(line: &str) -> String {
    match line.char_indices().nth(SHOWN) {
        Some((end, _)) => format!("{}.. ({} characters)", &line[..end], line.len()),
        None => line.to_string(),
    }
}

/// The lines with the reference's answer, and the port's where it is another.
fn entries(lines: &[String], by_01: &[String], ours: &[String]) -> String {
    let mut text = String::new();
    for (i, line) in lines.iter().enumerate() {
        text += &format!("{}\n    01:       {}\n", short(line), short(&by_01[i]));
        if ours[i] != by_01[i] {
            text += &format!("    the port: {}\n", short(&ours[i]));
        }
    }
    text
}

/// The file as it was played, and the small session.
pub fn show(port: &Side, asked: &Asked, answers: &[String]) -> String {
    let kind = asked.case.kind.name();
    let played = entries(&asked.lines, &asked.answers, answers);
    let small = match shrunk(port, asked) {
        Some((session, ours)) => {
            let lines: Vec<String> = session.calls.iter().map(write_call).collect();
            format!("shrunk to\n{}", entries(&lines, &session.answers, &ours))
        }
        None => "not shrunk: alone it is answered as by 01\n".to_string(),
    };
    format!("\nDIFFERS: {kind}\n{played}{small}")
}
