//! The page, docs/DIFFERENCES.md: its small sessions are replayed on both
//! sides, must be shown there as they are on file, and it must have every name.

use crate::sides::{Played, Sides};
use comparing::session::{sessions, Session};
use comparing::side::Side;
use comparing::{out, plain};
use std::fs;
use std::path::{Path, PathBuf};

pub struct Page {
    text: String,
    /// The sessions that have their names and answers on file, one or more for each difference.
    folder: PathBuf,
    /// Those that stand on the page alone: what to do instead, or a worse face of a difference.
    beside: PathBuf,
}

fn read(path: &Path) -> String {
    fs::read_to_string(path).unwrap_or_else(|error| {
        eprintln!("compare: {}: {error}", path.display());
        std::process::exit(2);
    })
}

/// What is wrong with the answers of one side to a file's lines.
fn side_faults(side: &Side, name: &str, text: &str, kept: &Path) -> Option<String> {
    let (answers, kept) = (side.play(text.to_string()), read(kept));
    let expected: Vec<&str> = kept.lines().collect();
    let line = (0..expected.len().max(answers.len()))
        .find(|i| answers.get(*i).map(String::as_str) != expected.get(*i).copied())?;
    let given = answers.get(line).map_or("(no answer)", String::as_str);
    let wanted = expected.get(line).unwrap_or(&"(nothing)");
    Some(format!("{name}, line {}: {given}\n    on file: {wanted}", line + 1))
}

/// The Rust's answers on file: those of this kind of machine where they have a file of their own.
fn rust_answers(file: &Path) -> PathBuf {
    let own = file.with_extension(format!("{}.rust", std::env::consts::ARCH));
    if own.exists() { own } else { file.with_extension("rust") }
}

/// The sessions of a folder, in the order of their names.
fn files(folder: &Path) -> Vec<PathBuf> {
    let entries = fs::read_dir(folder).into_iter().flatten().flatten();
    let is_session = |p: &PathBuf| p.extension().is_some_and(|e| e == "session");
    let mut files: Vec<PathBuf> = entries.map(|e| e.path()).filter(is_session).collect();
    files.sort();
    files
}

/// The session differs as its file's name says (`zero-bound`: on some processors not at all).
fn named(name: &str, played: &Played) -> Option<String> {
    let so = played.verdict.names.iter().any(|n| name.starts_with(n));
    let need = !name.starts_with("story") && name != "zero-bound";
    (need && !so).then(|| format!("{name}: does not differ by that name"))
}

impl Page {
    pub fn read(page: &Path, folder: PathBuf, beside: PathBuf) -> Self {
        Self { text: read(page), folder, beside }
    }

    /// A name is on the page where it stands as a heading, or in bold.
    pub fn has(&self, name: &str) -> bool {
        let heading =
            |line: &str| line.starts_with("## ") && line.split([' ', '`']).any(|w| w == name);
        self.text.contains(&format!("**{name}**")) || self.text.lines().any(heading)
    }

    /// Replays every file on both sides; what is not as on file or on the page.
    pub fn faults(&self, sides: &Sides) -> (usize, Vec<String>) {
        let (files, beside) = (files(&self.folder), files(&self.beside));
        let mut faults: Vec<String> =
            files.iter().flat_map(|file| self.file_faults(sides, file)).collect();
        faults.extend(beside.iter().flat_map(|file| self.beside_faults(sides, file)));
        for (folder, found) in [(&self.folder, &files), (&self.beside, &beside)] {
            if found.is_empty() {
                faults.push(format!("no sessions in {}", folder.display()));
            }
        }
        (files.len() + beside.len(), faults)
    }

    fn file_faults(&self, sides: &Sides, file: &Path) -> Vec<String> {
        let (text, name) = (read(file), file.file_stem().unwrap_or_default().to_string_lossy());
        let mut faults = Vec::new();
        let rust = rust_answers(file);
        let port = file.with_extension("port");
        for (side, who, kept) in [(&sides.port, "port", port), (&sides.rust, "Rust", rust)] {
            let name = format!("{name}: the {who}");
            faults.extend(side_faults(side, &name, &text, &kept));
        }
        for played in sides.play(sessions(&text)) {
            faults.extend(self.shown(&name, &played));
            faults.extend(named(&name, &played));
        }
        faults
    }

    fn beside_faults(&self, sides: &Sides, file: &Path) -> Vec<String> {
        let (text, name) = (read(file), file.file_stem().unwrap_or_default().to_string_lossy());
        sides.play(sessions(&text)).iter().flat_map(|played| self.shown(&name, played)).collect()
    }

    /// The session stands on the page with both answers, and differs by names alone.
    fn shown(&self, name: &str, played: &Played) -> Vec<String> {
        let Played { session, ours, rust, verdict } = played;
        let mut faults = Vec::new();
        if let Some((i, fields)) = &verdict.otherwise {
            faults.push(format!("{name}: call {i} differed otherwise: {fields}"));
        }
        if !self.text.contains(&plain::session(&session.calls, "01", ours, rust)) {
            faults.push(format!("{name}: the page does not show it as it is played"));
        }
        faults
    }

    /// How each file is to be shown: for writing the page.
    pub fn print(&self, sides: &Sides) {
        for file in [files(&self.folder), files(&self.beside)].concat() {
            out::print(&format!("{}\n", file.display()));
            let sessions: Vec<Session> = sessions(&read(&file));
            for Played { session, ours, rust, .. } in sides.play(sessions) {
                let text = plain::session(&session.calls, "01", &ours, &rust);
                out::print(&format!("```\n{text}```\n"));
            }
        }
    }
}
