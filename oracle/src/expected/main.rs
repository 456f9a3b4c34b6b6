//! What the gate runs the port's session program on, and what it must write.
//!
//! `expected OUT SESSIONS RUST [SESSIONS ANSWERS].. [--plain SESSIONS ANSWERS ..]
//! [--bursts SESSIONS ANSWERS ..]` writes OUT/stdin and OUT/stdout. First come the pairs
//! behind, sessions with answers that are given; each answer must be the reference's.
//! Those behind `--plain` are written with the word `plain` for every `block`, and with
//! the same answers (02, C-16). In those behind
//! `--bursts` each burst of cancels must have its one cancel, with the same
//! answers from the first `state` on. Then comes the list SESSIONS with the
//! Rust's answers, those marked `agree` before the others. An answer is written
//! only if the Rust's and the reference's agree in every word that the Rust
//! has, but for what the calls claim by name; so each word of it is the Rust's
//! own, or one that the Rust has not, or one under a name, of the reference.
//! Where they differ otherwise, or a session would end the comparison, it is
//! listed, nothing is written, and the status is 1.

mod burst;

use comparing::line::compared;
use comparing::session::{sessions, Session};
use reference::param::Reference;
use std::fs;
use std::path::Path;

#[derive(Default)]
struct Gate {
    stdin: String,
    stdout: String,
    refused: Vec<String>,
    /// Words that are the Rust's own, that it has not, and under a name.
    words: [usize; 3],
}

fn read(path: &str) -> String {
    fs::read_to_string(path).unwrap_or_else(|error| {
        eprintln!("expected: {path}: {error}");
        std::process::exit(2);
    })
}

impl Gate {
    /// Sessions with answers that are given, line for line.
    fn given(&mut self, path: &str, text: &str, answers: &str) {
        let mut reference = Reference::empty();
        let mut given = answers.lines();
        for (i, line) in text.lines().enumerate() {
            let answer = reference.answer_line(line);
            if given.next() != Some(answer.as_str()) {
                self.refused.push(format!("{path}, line {}: the reference says {answer}", i + 1));
            }
            self.write(line, &answer);
        }
        if given.next().is_some() {
            self.refused.push(format!("{path}: more answers than lines"));
        }
    }

    /// The same with `plain` for every `block`.
    fn given_plain(&mut self, path: &str, text: &str, answers: &str) {
        let said = |line: &str| match line.strip_prefix("block") {
            Some(rest) if rest.is_empty() || rest.starts_with(' ') => format!("plain{rest}\n"),
            _ => format!("{line}\n"),
        };
        let plain: String = text.lines().map(said).collect();
        self.given(&format!("{path}, with `plain`"), &plain, answers);
    }

    /// The same of bursts, each with its one cancel.
    fn bursts(&mut self, path: &str, text: &str, answers: &str) {
        self.given(path, text, answers);
        let faults = burst::faults(&sessions(text));
        self.refused.extend(faults.iter().map(|fault| format!("{path}, {fault}")));
    }

    /// A session of the list, with the Rust's answers.
    fn listed(&mut self, session: &Session, rust: &[&str]) {
        if let Some((i, name)) = session.end() {
            let at = session.lines[i] + 1;
            self.refused.push(format!("list, line {at}: from here on it differs by {name}"));
        }
        self.write(&format!("# {}", session.title), "");
        let text = session.text();
        for (i, line) in text.lines().enumerate() {
            let (at, ours) = (session.lines[i], session.answers[i].as_str());
            let theirs = rust.get(at).unwrap_or(&"");
            let both = compared(&session.calls[i], &session.claims[i], ours, theirs);
            if !both.otherwise.is_empty() {
                let fields = both.otherwise.join(", ");
                self.refused.push(format!("list, line {}: {fields}", at + 1));
            }
            self.count(ours, theirs);
            self.write(line, ours);
        }
    }

    fn count(&mut self, ours: &str, rust: &str) {
        let (ours, mut rust) = (ours.split(' '), rust.split(' '));
        for word in ours {
            let theirs = rust.next().unwrap_or_default();
            let kind = if word == theirs { 0 } else { 1 + usize::from(theirs != "-") };
            self.words[kind] += 1;
        }
    }

    fn write(&mut self, line: &str, answer: &str) {
        self.stdin += &format!("{line}\n");
        self.stdout += &format!("{answer}\n");
    }
}

fn main() {
    let words: Vec<String> = std::env::args().skip(1).collect();
    let [out, list, rust, pairs @ ..] = words.as_slice() else {
        eprintln!("expected OUT SESSIONS RUST [[--plain | --bursts] SESSIONS ANSWERS ..]..");
        std::process::exit(2);
    };
    let mut gate = Gate::default();
    let mut put: fn(&mut Gate, &str, &str, &str) = Gate::given;
    let mut words = pairs.iter();
    while let Some(word) = words.next() {
        match (word.as_str(), words.as_slice().first()) {
            ("--plain", _) => put = Gate::given_plain,
            ("--bursts", _) => put = Gate::bursts,
            (path, Some(answers)) => {
                words.next();
                put(&mut gate, path, &read(path), &read(answers));
            }
            (path, None) => gate.refused.push(format!("{path}: no answers are named")),
        }
    }
    let answers = read(rust);
    let answers: Vec<&str> = answers.lines().collect();
    let mut all = sessions(&read(list));
    all.sort_by_key(|session| !session.mark().starts_with("agree"));
    all.iter().for_each(|session| gate.listed(session, &answers));
    gate.refused.iter().for_each(|line| eprintln!("expected: refused: {line}"));
    if !gate.refused.is_empty() {
        std::process::exit(1);
    }
    let put = |name: &str, text: &str| fs::write(Path::new(out).join(name), text).expect("a file");
    put("stdin", &gate.stdin);
    put("stdout", &gate.stdout);
    let [own, lacking, named] = gate.words;
    eprintln!(
        "expected: {} sessions of the list; of the words of their answers {own} are the \
        Rust's, {lacking} it has not, {named} are 01's under a name",
        all.len()
    );
}
