//! What many verdicts come to, and its print.

use crate::again::Again;
use crate::carded::Carded;
use crate::editions::Editions;
use crate::session::Session;
use crate::verdict::{Limit, Tally, Verdict};
use reference::claims::Reach;
use std::collections::{BTreeMap, BTreeSet};
use std::fmt;

/// The names that mean: within 01's limits.
const LIMITS: [&str; 2] = ["target-sample", "exponential-sample"];

#[derive(Default)]
pub struct Summary {
    /// Those that the Rust is asked for.
    pub sessions: usize,
    /// Sessions in which the calls claim no difference at all.
    pub unclaimed: usize,
    agreed: usize,
    limits: usize,
    named: usize,
    pub otherwise: usize,
    pub not_01: usize,
    /// By name: sessions that differed so, and sessions that claim it.
    by_name: BTreeMap<&'static str, (usize, usize)>,
    pub tally: Tally,
    /// Those of both editions.
    pub editions: Editions,
    /// Those with cards.
    pub carded: Carded,
    /// All of them but those with cards, with `plain` for `block`.
    pub again: Again,
}

impl Summary {
    pub fn add(&mut self, session: &Session, verdict: &Verdict) {
        self.not_01 += usize::from(verdict.not_01.is_some());
        if session.has_cards() {
            return self.carded.add(session);
        }
        if !session.has_rust() {
            return self.editions.add(session);
        }
        self.sessions += 1;
        self.unclaimed += usize::from(session.claims_nothing());
        self.tally.add(&verdict.tally);
        *if verdict.otherwise.is_some() {
            &mut self.otherwise
        } else if verdict.names.is_empty() {
            &mut self.agreed
        } else if verdict.names.iter().all(|name| LIMITS.contains(name)) {
            &mut self.limits
        } else {
            &mut self.named
        } += 1;
        for name in &verdict.names {
            self.by_name.entry(name).or_default().0 += 1;
        }
        let reaches = [Reach::Part, Reach::Close, Reach::Ends];
        let claimed: BTreeSet<_> = reaches.iter().flat_map(|r| session.claimed(*r)).collect();
        for name in claimed {
            self.by_name.entry(name).or_default().1 += 1;
        }
    }

    /// A session that is played once more.
    pub fn add_again(&mut self, session: &Session, verdict: &Verdict) {
        self.not_01 += usize::from(verdict.not_01.is_some());
        self.otherwise += usize::from(verdict.otherwise.is_some());
        self.again.add(session);
    }

    pub fn names(&self) -> impl Iterator<Item = &'static str> + '_ {
        self.by_name.keys().copied()
    }

    fn print_names(&self, f: &mut fmt::Formatter) -> fmt::Result {
        writeln!(f, "\nby name: sessions that differed so (and that claim it by their calls)")?;
        for (name, (differed, claimed)) in &self.by_name {
            writeln!(f, "{differed:9}  {name} ({claimed})")?;
        }
        Ok(())
    }

    fn print_runs(&self, f: &mut fmt::Formatter) -> fmt::Result {
        let Tally { answers, samples, runs, .. } = &self.tally;
        writeln!(
            f,
            "\nfirst list, bit for bit ({answers} answers with {samples} samples compared)"
        )?;
        for (kind, title) in [("step", "steps"), ("linear", "linear ramps"), ("curve", "curves")] {
            let runs = runs.get(kind).copied().unwrap_or_default();
            let (filling, places) = (runs.filling, runs.samples);
            writeln!(
                f,
                "{:9}  runs of {title}, {filling} of them filling {places} places",
                runs.all
            )?;
        }
        writeln!(f, "           (a run: one head in one block that fills a place or is consumed;")?;
        writeln!(f, "           a ramp of no length is none)")
    }
}

/// One of 01's limits: `unit` is what its share 1 stands for, as a power of two.
fn print_limit(f: &mut fmt::Formatter, title: &str, unit: f64, limit: &Limit) -> fmt::Result {
    let Limit { runs, numbers, equal, worst } = limit;
    let power = worst.log2() + unit;
    writeln!(
        f,
        "{runs:9}  runs of {title}, {numbers} numbers, {equal} of them with the same bits;"
    )?;
    writeln!(f, "           worst {worst:.3} of the limit (2^{power:.1} for 2^{unit})")
}

impl fmt::Display for Summary {
    fn fmt(&self, f: &mut fmt::Formatter) -> fmt::Result {
        let (all, unclaimed) = (self.sessions, self.unclaimed);
        writeln!(
            f,
            "{all} sessions; {unclaimed} of them contain no difference that the page names"
        )?;
        writeln!(f, "{:9}  agreed bit for bit", self.agreed)?;
        writeln!(f, "{:9}  differed in last bits alone, within 01's limits", self.limits)?;
        writeln!(f, "{:9}  differed in a way that the page names", self.named)?;
        writeln!(f, "{:9}  differed otherwise", self.otherwise)?;
        self.print_names(f)?;
        self.print_runs(f)?;
        writeln!(f, "\nsecond list, against 01's measured limits")?;
        print_limit(f, "targets", -20., &self.tally.target)?;
        print_limit(f, "exponentials", -18., &self.tally.exponential)?;
        write!(f, "{}{}{}", self.editions, self.carded, self.again)?;
        let all = if self.not_01 == 0 { "all" } else { "NOT all" };
        writeln!(f, "\nthe port gives {all} answers of oracle/reference, the interpreter")
    }
}
