//! What sessions with cards come to (02, C-11), which the port and the reference alone
//! answer, and its print.

use crate::session::Session;
use reference::edition::Edition;
use reference::session::{Call, Load};
use std::collections::BTreeMap;
use std::fmt;

/// The numbers that a file can be refused with, and in how many sessions one must be.
pub const NUMBERS: [(u8, usize); 15] = [
    (1, 40),
    (2, 20),
    (3, 200),
    (4, 200),
    (5, 200),
    (6, 200),
    (7, 200),
    (8, 200),
    (11, 100),
    (12, 20),
    (20, 20),
    (21, 20),
    (22, 20),
    (23, 10),
    (28, 10),
];

/// The number and the offset or place of a refusal that has both.
pub fn refused(answer: &str) -> Option<(u8, usize)> {
    let (number, at) = answer.strip_prefix("refused ")?.split_once(' ')?;
    Some((number.parse().ok()?, at.parse().ok()?))
}

#[derive(Default)]
pub struct Carded {
    pub sessions: usize,
    saved: usize,
    /// Saves that were refused, at place 0 and at a later one.
    unsaved: [usize; 2],
    /// Answered loads; those in more than one part; those under the second edition.
    loaded: usize,
    in_parts: usize,
    second: usize,
    /// Refused loads, by number.
    refused: BTreeMap<u8, usize>,
}

impl Carded {
    pub fn add(&mut self, session: &Session) {
        self.sessions += 1;
        for (i, call) in session.calls.iter().enumerate() {
            let (answer, edition) = (session.answers[i].as_str(), session.editions[i]);
            match (call, refused(answer)) {
                (Call::Save, None) => self.saved += 1,
                (Call::Save, Some((_, place))) => self.unsaved[place.min(1)] += 1,
                (Call::Load(load), None) => self.load(load, edition),
                (Call::Load(_), Some((number, _))) => *self.refused.entry(number).or_default() += 1,
                _ => (),
            }
        }
    }

    fn load(&mut self, load: &Load, edition: Edition) {
        self.loaded += 1;
        self.in_parts += usize::from(load.part < load.file.len());
        self.second += usize::from(edition == Edition::Second);
    }

    /// What the drawn sessions lack to say much; a few can lack anything.
    pub fn shortcomings(&self) -> Vec<String> {
        let mut often = vec![
            ("answered save".to_string(), self.saved, 1),
            ("save refused at place 0".to_string(), self.unsaved[0], 4),
            ("save refused at a later place".to_string(), self.unsaved[1], 20),
            ("answered load in more than one part".to_string(), self.in_parts, 3),
            ("answered load under the second edition".to_string(), self.second, 5),
        ];
        for (number, of) in NUMBERS {
            let seen = self.refused.get(&number).copied().unwrap_or(0);
            often.push((format!("load refused with {number}"), seen, of));
        }
        let lacks = |(_, seen, of): &(String, usize, usize)| seen * of < self.sessions;
        let few = often.into_iter().filter(|one| self.sessions >= 200 && lacks(one));
        few.map(|(what, _, of)| format!("fewer than one {what} in {of} sessions")).collect()
    }
}

impl fmt::Display for Carded {
    fn fmt(&self, f: &mut fmt::Formatter) -> fmt::Result {
        if self.sessions == 0 {
            return Ok(());
        }
        let [first, later] = self.unsaved;
        let by_number = |(number, times): (&u8, &usize)| format!("{number} ×{times}");
        let refused: Vec<String> = self.refused.iter().map(by_number).collect();
        writeln!(f, "\n{} sessions with cards, beside the interpreter alone", self.sessions)?;
        writeln!(f, "{:9}  schedules saved", self.saved)?;
        writeln!(f, "{first:9}  .. refused at place 0, {later} at a later one")?;
        writeln!(f, "{:9}  files loaded, {} in more than one part", self.loaded, self.in_parts)?;
        writeln!(f, "{:9}  .. under the second edition", self.second)?;
        let times: usize = self.refused.values().sum();
        writeln!(f, "{times:9}  .. refused, by number: {}", refused.join(", "))
    }
}
