//! A session with what is claimed of it. It is made from the calls alone; no
//! answer of the port or of the Rust is at hand here.

use reference::claims::{Claims, Reach};
use reference::edition::Edition;
use reference::param::Reference;
use reference::session::{read_line, write_call, Call, Line};

/// The calls from one `make` to the next.
#[derive(Clone)]
pub struct Session {
    pub title: String,
    pub calls: Vec<Call>,
    /// For each call what may differ, and what 01 answers.
    pub claims: Vec<Claims>,
    pub answers: Vec<String>,
    /// The edition of the parameter behind each call.
    pub editions: Vec<Edition>,
    /// Where it was read from a text: the number of each call's line, from 0.
    pub lines: Vec<usize>,
}

impl Session {
    pub fn new(title: &str, calls: Vec<Call>) -> Self {
        let mut reference = Reference::empty();
        let (mut claims, mut answers, mut editions) = (Vec::new(), Vec::new(), Vec::new());
        for call in &calls {
            answers.push(reference.answer(call));
            claims.push(reference.claims.clone());
            editions.push(reference.edition());
        }
        let lines = (0..calls.len()).collect();
        Self { title: title.to_string(), calls, claims, answers, editions, lines }
    }

    pub fn text(&self) -> String {
        self.calls.iter().map(|call| write_call(call) + "\n").collect()
    }

    /// The Rust has one edition and no cards: what is made under another edition, or read
    /// from a file, it cannot be asked for.
    pub fn has_rust(&self) -> bool {
        let other = |call: &Call| matches!(call, Call::Make { edition: Some(n), .. } if *n != 1);
        !self.has_cards() && !self.calls.iter().any(other)
    }

    pub fn has_cards(&self) -> bool {
        self.calls.iter().any(|call| matches!(call, Call::Save | Call::Load(_)))
    }

    /// The first call from which on the sides hold different parameters, by what name.
    pub fn end(&self) -> Option<(usize, &'static str)> {
        self.claims.iter().enumerate().find_map(|(i, c)| c.end().map(|name| (i, name)))
    }

    /// The names claimed with this reach, up to and with the call that ends it.
    pub fn claimed(&self, reach: Reach) -> Vec<&'static str> {
        let last = self.end().map_or(self.calls.len(), |(i, _)| i + 1);
        let mut names = Vec::new();
        for claim in self.claims[..last].iter().flat_map(|c| &c.list) {
            if claim.reach == reach && !names.contains(&claim.name) {
                names.push(claim.name);
            }
        }
        names
    }

    pub fn claims_nothing(&self) -> bool {
        self.claims.iter().all(|c| c.list.is_empty())
    }

    /// `agree`, `agree except NAMES`, `limits`, `limits except NAMES`, `differs NAMES`, or
    /// `no Rust`.
    pub fn mark(&self) -> String {
        if !self.has_rust() {
            return "no Rust".to_string();
        }
        let words = |reach| self.claimed(reach).join(" ");
        let (ends, close, part) = (words(Reach::Ends), words(Reach::Close), words(Reach::Part));
        let except = if part.is_empty() { part } else { format!(" except {part}") };
        if !ends.is_empty() {
            format!("differs {ends}")
        } else if !close.is_empty() {
            format!("limits{except}")
        } else {
            format!("agree{except}")
        }
    }
}

/// The sessions of a text; a comment before a `make` is the title. Lines that
/// no call is read from belong to none.
pub fn sessions(text: &str) -> Vec<Session> {
    let (mut found, mut title) = (Vec::new(), "");
    let mut open: Option<(&str, Vec<Call>, Vec<usize>)> = None;
    for (number, line) in text.lines().enumerate() {
        title = line.strip_prefix("# ").unwrap_or(title);
        let Line::Call(call) = read_line(line) else { continue };
        if matches!(call, Call::Make { .. }) || open.is_none() {
            let before = open.replace((title, Vec::new(), Vec::new()));
            found.extend(before.map(closed));
        }
        let (_, calls, lines) = open.as_mut().expect("a session is open");
        calls.push(call);
        lines.push(number);
    }
    found.extend(open.map(closed));
    found
}

fn closed((title, calls, lines): (&str, Vec<Call>, Vec<usize>)) -> Session {
    Session { lines, ..Session::new(title, calls) }
}
