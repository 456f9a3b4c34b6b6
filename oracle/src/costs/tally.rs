//! What many sessions come to, and its print.

use crate::costed::{each, Costed};
use crate::BATCH;
use reference::costs::Costs;
use reference::session::Call;
use std::fmt;

#[derive(Default)]
pub struct Tally {
    pub sessions: usize,
    lines: usize,
    /// The totals up to each further `make` and to the sessions' ends, added up.
    all: Costs,
    by_cancel: u64,
    by_hold: u64,
    refused: usize,
    /// Sessions with an event, as many steps as there can be.
    reached: usize,
    pub differ: usize,
}

impl Tally {
    pub fn add(&mut self, session: &Costed, differs: bool) {
        self.sessions += 1;
        self.lines += session.calls.len();
        for end in session.ends() {
            self.all = each(self.all, end, u64::wrapping_add);
        }
        for (i, call) in session.calls.iter().enumerate() {
            match call {
                Call::Cancel(_) => self.by_cancel += session.added(i).cancelled,
                Call::Hold(_) => self.by_hold += session.added(i).cancelled,
                _ => (),
            }
            self.refused += usize::from(session.is_refused(i));
        }
        let reaches = |end: &Costs| end.stored > 0 && end.steps == end.bound();
        self.reached += usize::from(session.ends().iter().any(reaches));
        self.differ += usize::from(differs);
    }

    /// What the drawn sessions lack to say much; a few can lack anything.
    pub fn shortcomings(&self, n: usize) -> Vec<String> {
        let mut all = Vec::new();
        if self.sessions < n {
            all.push(format!("stopped after {} of {n} sessions", self.sessions));
        }
        let sessions = self.sessions as u64;
        let often = [
            ("event finished", self.all.finished, 1),
            ("exponential turned", self.all.turned, 2),
            ("event cancelled by a cancel", self.by_cancel, 2),
            ("event cancelled by a hold", self.by_hold, 2),
            ("refused call", self.refused as u64, 2),
            ("session at the bound", self.reached as u64, 50),
        ];
        for (what, seen, of) in often {
            if self.sessions >= BATCH && seen * of < sessions {
                all.push(format!("fewer than one {what} in {of} sessions"));
            }
        }
        all
    }
}

impl fmt::Display for Tally {
    fn fmt(&self, f: &mut fmt::Formatter) -> fmt::Result {
        let Costs { steps, blocks, finished, turned, stored, waiting, .. } = self.all;
        writeln!(f, "{} sessions, {} cost lines", self.sessions, self.lines)?;
        writeln!(f, "{steps:9}  steps")?;
        writeln!(f, "{blocks:9}  blocks answered")?;
        writeln!(f, "{finished:9}  events finished")?;
        writeln!(f, "{turned:9}  exponentials turned")?;
        writeln!(f, "{stored:9}  events stored")?;
        writeln!(f, "{:9}  events cancelled by a cancel", self.by_cancel)?;
        writeln!(f, "{:9}  .. by a hold", self.by_hold)?;
        writeln!(f, "{waiting:9}  events waiting at the end")?;
        writeln!(f, "{:9}  refused calls", self.refused)?;
        writeln!(f, "{:9}  sessions with an event reached the bound", self.reached)?;
        writeln!(f, "{:9}  differ", self.differ)
    }
}
