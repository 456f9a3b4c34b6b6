//! What many pairs come to, and its print.

use crate::pair::Pair;
use crate::BATCH;
use reference::edition::Edition;
use std::fmt;

#[derive(Default)]
pub struct Tally {
    pub pairs: usize,
    took: usize,
    in_parts: usize,
    left: usize,
    moved: usize,
    unordered: usize,
    refused: usize,
    repeats: usize,
    second: usize,
    pub differed: usize,
}

fn repeats(times: &[f64]) -> bool {
    (1..times.len()).any(|i| times[..i].contains(&times[i]))
}

impl Tally {
    pub fn add(&mut self, pair: &Pair, differed: bool) {
        let times = pair.times();
        self.pairs += 1;
        self.took += usize::from(pair.does.takers > 0);
        self.in_parts += usize::from(pair.does.takers > 1);
        self.left += usize::from(pair.does.takers > 0 && pair.does.left > 0);
        self.moved += usize::from(pair.does.moves);
        self.unordered += usize::from(times.windows(2).any(|two| two[1] < two[0]));
        self.refused += usize::from(times.len() < pair.burst.len());
        self.repeats += usize::from(repeats(&times));
        self.second += usize::from(pair.edition == Edition::Second);
        self.differed += usize::from(differed);
    }

    /// What the drawn pairs lack to say much; a few can lack anything.
    pub fn shortcomings(&self, n: usize) -> Vec<String> {
        let mut all = Vec::new();
        if self.pairs < n {
            all.push(format!("stopped after {} of {n} pairs", self.pairs));
        }
        let many = self.pairs >= BATCH;
        if many && self.took * 2 < self.pairs {
            all.push("fewer than half of the bursts took an event".to_string());
        }
        if many && self.moved * 20 < self.pairs {
            all.push("fewer than one burst in twenty moved the intrinsic value".to_string());
        }
        all
    }
}

impl fmt::Display for Tally {
    fn fmt(&self, f: &mut fmt::Formatter) -> fmt::Result {
        writeln!(f, "{} pairs, a burst beside one cancel", self.pairs)?;
        writeln!(f, "{:9}  bursts took an event", self.took)?;
        writeln!(f, "{:9}  .. by more than one cancel", self.in_parts)?;
        writeln!(f, "{:9}  .. and left one", self.left)?;
        writeln!(f, "{:9}  moved the intrinsic value", self.moved)?;
        writeln!(f, "{:9}  were not in rising order", self.unordered)?;
        writeln!(f, "{:9}  had a refused cancel", self.refused)?;
        writeln!(f, "{:9}  repeated a time", self.repeats)?;
        writeln!(f, "{:9}  were under the second edition", self.second)?;
        writeln!(f, "{:9}  pairs differed", self.differed)
    }
}
