//! Two answers to one call, field by field: equal, different under a name that
//! the calls claimed, or different otherwise. Fields that the Rust has not
//! (steps, the last block's time and end, store, the output's rest) are not looked at.

use reference::claims::Claims;
use reference::near::Near;
use reference::session::{Block, Call};
use std::collections::BTreeSet;

/// How far apart the sides were where 01 has a limit, as a share of it.
#[derive(Clone, Copy)]
pub struct Distance {
    pub near: Near,
    pub share: f64,
}

pub struct Compared<'a> {
    claims: &'a Claims,
    /// The names under which something differed.
    pub names: BTreeSet<&'static str>,
    /// The fields that differed otherwise.
    pub otherwise: Vec<String>,
    /// Numbers held to 01's limits, without those that an input was added to.
    pub distances: Vec<Distance>,
}

/// Compares the two sides' answers to a call.
pub fn compared<'a>(call: &Call, claims: &'a Claims, ours: &str, rust: &str) -> Compared<'a> {
    let (names, otherwise, distances) = (BTreeSet::new(), Vec::new(), Vec::new());
    let mut both = Compared { claims, names, otherwise, distances };
    let a: Vec<&str> = ours.split(' ').collect();
    let b: Vec<&str> = rust.split(' ').collect();
    match (call, a[0], b[0]) {
        (_, "refused", "panic") => both.word("answer", &["refused", "curve-inside"], ours, rust),
        (Call::Block(block), "block", "block") if a.len() == b.len() && a.len() >= 5 => {
            both.block(block, &a, &b);
        }
        (Call::State, "state", "state") if a.len() >= 10 && b.len() >= 10 => both.state(&a, &b),
        _ => both.word("answer", &[], ours, rust),
    }
    both
}

fn number(word: &str) -> Option<f64> {
    let bits = u32::from_str_radix(word, 16).ok()?;
    Some(f64::from(f32::from_bits(bits)))
}

fn is_zero(word: &str) -> bool {
    word == "00000000" || word == "80000000"
}

/// What rounding the sums with an input can add: half an ulp of each sum.
fn rounding(a: f64, b: f64) -> f64 {
    a.abs().max(b.abs()) * f64::powi(2., -23) + f64::powi(2., -149)
}

impl Compared<'_> {
    /// `block STEPS CURRENT ONE S1 .. REST`
    fn block(&mut self, block: &Block, ours: &[&str], rust: &[&str]) {
        let Claims { current, places, .. } = self.claims;
        self.number("current value", *current, false, &["current-value"], (ours[2], rust[2]));
        let left = places.get(1) == Some(&Near::Open("places-left"));
        let one: &[_] = if left { &["places-left", "one-sample"] } else { &["one-sample"] };
        self.word("one-valued", one, ours[3], rust[3]);
        for i in 4..ours.len() - 1 {
            let near = places.get(i - 4).copied().unwrap_or_default();
            let zeros = is_zero(ours[i]) && is_zero(rust[i]);
            let names: &[_] = if zeros { &["zero-bound"] } else { &[] };
            let (field, input) = (format!("sample {}", i - 4), !block.input.is_empty());
            self.number(&field, near, input, names, (ours[i], rust[i]));
        }
    }

    /// `state RATE MIN DEFAULT MAX INTRINSIC BLOCK LAST COUNT E1 .. ZEROS`
    fn state(&mut self, ours: &[&str], rust: &[&str]) {
        let Claims { intrinsic, last, .. } = *self.claims;
        self.word("range", &[], &ours[1..5].join(" "), &rust[1..5].join(" "));
        self.number("intrinsic value", intrinsic, false, &[], (ours[5], rust[5]));
        match (ours[7].split_once(':'), rust[7].split_once(':')) {
            (Some((t, v)), Some((s, w))) => {
                self.word("last event", &[], t, s);
                self.number("last event", last, false, &[], (v, w));
            }
            _ => self.word("last event", &[], ours[7], rust[7]),
        }
        let waiting = |words: &[&str]| words[8..words.len() - 1].join(" ");
        self.word("waiting events", &[], &waiting(ours), &waiting(rust));
    }

    /// A field that is equal, or differs under one of these names if claimed.
    fn word(&mut self, field: &str, names: &[&'static str], ours: &str, rust: &str) {
        if ours == rust {
            return;
        }
        match names.iter().find(|name| self.claims.has(name)) {
            Some(name) => _ = self.names.insert(name),
            None => self.otherwise.push(field.to_string()),
        }
    }

    fn number(
        &mut self,
        field: &str,
        near: Near,
        input: bool,
        names: &[&'static str],
        (ours, rust): (&str, &str),
    ) {
        let (name, limit) = match near {
            Near::Same => return self.word(field, names, ours, rust),
            Near::Open(name) => return self.word(field, &[names, &[name]].concat(), ours, rust),
            Near::Target(limit) => ("target-sample", limit),
            Near::Exponential(limit) => ("exponential-sample", limit),
        };
        let apart = number(ours).zip(number(rust)).map(|(a, b)| ((a - b).abs(), rounding(a, b)));
        let (distance, sum) = apart.unwrap_or((f64::NAN, 0.));
        if !input {
            self.distances.push(Distance { near, share: distance / limit });
        }
        let near_enough = distance <= limit + if input { sum } else { 0. };
        let names = if near_enough { &[&[name], names].concat() } else { names };
        self.word(field, names, ours, rust);
    }
}
