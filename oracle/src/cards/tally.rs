//! What many files come to, and its print.

use crate::batch::Asked;
use crate::drawn::Kind;
use comparing::carded::{refused, NUMBERS};
use std::collections::BTreeMap;
use std::fmt;

#[derive(Default)]
pub struct Tally {
    pub files: usize,
    lines: usize,
    /// By kind: files, and those that are read.
    kinds: BTreeMap<Kind, [usize; 2]>,
    /// By number: those that are refused.
    numbers: BTreeMap<u8, usize>,
    pub differ: usize,
}

impl Tally {
    pub fn add(&mut self, asked: &Asked, differs: bool) {
        self.files += 1;
        self.lines += asked.lines.len();
        let [files, read] = self.kinds.entry(asked.case.kind).or_default();
        *files += 1;
        *read += usize::from(asked.is_read());
        if let Some((number, _)) = refused(&asked.answers[0]) {
            *self.numbers.entry(number).or_default() += 1;
        }
        self.differ += usize::from(differs);
    }

    /// What is wrong beside single files: not all were played, or a number is not met.
    pub fn shortcomings(&self, all: usize) -> Vec<String> {
        let mut found = Vec::new();
        if self.files < all {
            found.push(format!("stopped after {} of {all} files", self.files));
        }
        for (number, _) in NUMBERS.iter().filter(|(number, _)| !self.numbers.contains_key(number)) {
            found.push(format!("no file is refused with {number}"));
        }
        found
    }
}

impl fmt::Display for Tally {
    fn fmt(&self, f: &mut fmt::Formatter) -> fmt::Result {
        writeln!(f, "{} files, {} answers compared", self.files, self.lines)?;
        for (kind, [files, read]) in &self.kinds {
            writeln!(f, "{files:9}  {}, {read} read", kind.name())?;
        }
        let refused: usize = self.numbers.values().sum();
        writeln!(f, "{refused:9}  refused")?;
        for (number, files) in &self.numbers {
            writeln!(f, "{files:9}  .. with {number}")?;
        }
        writeln!(f, "{} differences", self.differ)
    }
}
