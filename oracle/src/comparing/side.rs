//! A program that answers sessions, and its answers to many.

use crate::session::Session;
use std::io::{Read, Write};
use std::path::PathBuf;
use std::process::{Child, Command, Stdio};
use std::sync::mpsc;
use std::thread;
use std::time::Duration;

/// A program that has not answered a batch by then is stopped, and so are we.
const PATIENCE: Duration = Duration::from_secs(60);

/// What stands for an answer that a program did not give.
pub const MISSING: &str = "(no answer)";

#[derive(Clone)]
pub struct Side {
    pub path: PathBuf,
}

impl Side {
    /// The answers to a text, a line each; fewer if the program ended early.
    pub fn play(&self, text: String) -> Vec<String> {
        let mut command = Command::new(&self.path);
        let started = command.stdin(Stdio::piped()).stdout(Stdio::piped()).spawn();
        let mut child = started.unwrap_or_else(|error| {
            eprintln!("oracle: cannot start {}: {error}", self.path.display());
            std::process::exit(2);
        });
        let mut input = child.stdin.take().expect("a pipe to it");
        let writer = thread::spawn(move || _ = input.write_all(text.as_bytes()));
        let output = read_in_time(&mut child, &self.path.to_string_lossy());
        let _ = (child.wait(), writer.join());
        String::from_utf8_lossy(&output).lines().map(str::to_string).collect()
    }

    /// The answers to each session.
    pub fn answers(&self, sessions: &[Session]) -> Vec<Vec<String>> {
        let texts: Vec<String> = sessions.iter().map(Session::text).collect();
        self.answers_to(&texts)
    }

    /// The answers to each text, one for each of its lines. One in which the program
    /// ended early is filled up, and the next is given to a new process.
    pub fn answers_to(&self, texts: &[String]) -> Vec<Vec<String>> {
        let mut all = Vec::with_capacity(texts.len());
        while all.len() < texts.len() {
            let rest = &texts[all.len()..];
            let mut lines = self.play(rest.concat()).into_iter();
            for text in rest {
                let n = text.lines().count();
                let mut own: Vec<String> = lines.by_ref().take(n).collect();
                let early = own.len() < n;
                own.resize(n, MISSING.to_string());
                all.push(own);
                if early {
                    break;
                }
            }
            if let (Some(more), Some(last)) =
                (lines.next(), all.last_mut().and_then(|a| a.last_mut()))
            {
                *last += &format!(" (and one line more: {more})");
            }
        }
        all
    }
}

fn read_in_time(child: &mut Child, name: &str) -> Vec<u8> {
    let mut output = child.stdout.take().expect("a pipe from it");
    let (done, wait) = mpsc::channel();
    let reader = thread::spawn(move || {
        let mut bytes = Vec::new();
        let _ = output.read_to_end(&mut bytes);
        let _ = done.send(());
        bytes
    });
    if wait.recv_timeout(PATIENCE).is_err() {
        let _ = child.kill();
        eprintln!("oracle: no end of the answers after {} s: {name}", PATIENCE.as_secs());
        std::process::exit(2);
    }
    reader.join().unwrap_or_default()
}
