//! The verdict on one session, and what is added up over many.

use crate::line::{compared, Compared};
use crate::session::Session;
use reference::claims::{Claims, Run};
use reference::near::Near;
use reference::session::Call;
use std::collections::{BTreeMap, BTreeSet};

/// Runs of one kind that were compared, those that fill places, and their samples.
#[derive(Clone, Copy, Debug, Default, PartialEq)]
pub struct Runs {
    pub all: usize,
    pub filling: usize,
    pub samples: usize,
}

/// Numbers held to one of 01's limits, how many had the same bits all the
/// same, and the worst as a share of the limit.
#[derive(Clone, Copy, Debug, Default)]
pub struct Limit {
    pub runs: usize,
    pub numbers: usize,
    pub equal: usize,
    pub worst: f64,
}

#[derive(Clone, Debug, Default)]
pub struct Tally {
    pub answers: usize,
    pub samples: usize,
    /// Bit for bit, by kind of the head.
    pub runs: BTreeMap<&'static str, Runs>,
    pub target: Limit,
    pub exponential: Limit,
}

#[derive(Default)]
pub struct Verdict {
    /// The names under which answers differed.
    pub names: BTreeSet<&'static str>,
    /// The first call whose answers differed otherwise, and in which fields.
    pub otherwise: Option<(usize, String)>,
    /// The first call that the port answers otherwise than the reference.
    pub not_01: Option<usize>,
    pub tally: Tally,
}

/// Judges the two sides' answers to a session, a line for each of its calls; the port's
/// by the reference alone where the Rust has no such parameter.
pub fn judge(session: &Session, ours: &[String], rust: &[String]) -> Verdict {
    let not_01 = (0..ours.len()).find(|i| ours[*i] != session.answers[*i]);
    let mut verdict = Verdict { not_01, ..Verdict::default() };
    if !session.has_rust() {
        return verdict;
    }
    let end = session.end();
    let last = end.map_or(session.calls.len(), |(i, _)| i);
    for i in 0..session.calls.len() {
        let (call, claims) = (&session.calls[i], &session.claims[i]);
        let both = compared(call, claims, &ours[i], &rust[i]);
        if i < last {
            verdict.names.extend(&both.names);
            if !both.otherwise.is_empty() {
                verdict.otherwise = Some((i, both.otherwise.join(", ")));
                return verdict;
            }
            verdict.tally.count(call, claims, &both);
        } else if !both.otherwise.is_empty() {
            verdict.names.extend(end.map(|(_, name)| name));
        }
    }
    verdict
}

impl Tally {
    fn count(&mut self, call: &Call, claims: &Claims, both: &Compared) {
        self.answers += 1;
        if matches!(call, Call::Block(_)) {
            self.samples += claims.places.len();
            claims.runs.iter().for_each(|run| self.count_run(claims, run));
        }
        for distance in &both.distances {
            if let Some(limit) = self.limit(distance.near) {
                limit.numbers += 1;
                limit.equal += usize::from(distance.share == 0.);
                limit.worst = limit.worst.max(distance.share);
            }
        }
    }

    /// A run counts as bit for bit if all of its places were asked to be so.
    fn count_run(&mut self, claims: &Claims, run: &Run) {
        let held = match run.kind {
            "target" => Some(&mut self.target),
            "exponential" => Some(&mut self.exponential),
            _ => None,
        };
        if let Some(limit) = held {
            limit.runs += 1;
        } else if claims.places[run.places.clone()].iter().all(|near| *near == Near::Same) {
            let runs = self.runs.entry(run.kind).or_default();
            runs.all += 1;
            runs.filling += usize::from(!run.places.is_empty());
            runs.samples += run.places.len();
        }
    }

    fn limit(&mut self, near: Near) -> Option<&mut Limit> {
        match near {
            Near::Target(_) => Some(&mut self.target),
            Near::Exponential(_) => Some(&mut self.exponential),
            _ => None,
        }
    }

    pub fn add(&mut self, other: &Tally) {
        self.answers += other.answers;
        self.samples += other.samples;
        for (kind, runs) in &other.runs {
            let sum = self.runs.entry(kind).or_default();
            sum.all += runs.all;
            sum.filling += runs.filling;
            sum.samples += runs.samples;
        }
        self.target.add(&other.target);
        self.exponential.add(&other.exponential);
    }
}

impl Limit {
    fn add(&mut self, other: &Limit) {
        self.runs += other.runs;
        self.numbers += other.numbers;
        self.equal += other.equal;
        self.worst = self.worst.max(other.worst);
    }
}
