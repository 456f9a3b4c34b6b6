//! What sessions of both editions come to (02, C-19), which the port and the reference
//! alone answer, and its print.

use crate::session::Session;
use reference::edition::Edition;
use reference::session::{Block, Call};
use std::fmt;

/// The most places of a block under the first edition, and under the second.
const SHORT: u64 = 128;
const LONG: u64 = 1024;

#[derive(Default)]
pub struct Editions {
    pub sessions: usize,
    /// Answered blocks of more places than the first edition has; those of the most;
    /// those with two steps or more; those with an input.
    long: usize,
    most: usize,
    walked: usize,
    mixed: usize,
    /// Blocks refused for their count alone, by edition.
    over: [usize; 2],
    /// Makes that were refused with 1 and with 12; with 1 where 12 applies too.
    range: usize,
    unknown: usize,
    both: usize,
    /// Makes that changed the edition.
    remade: usize,
}

/// Whether the count of a block is above its edition's ceiling, and all lengths fit it.
pub fn is_over(block: &Block, edition: Edition) -> bool {
    let Block { count, out, input, .. } = block;
    let fits = *out as u64 >= *count && (input.is_empty() || input.len() as u64 == *count);
    fits && *count > edition.ceiling() as u64
}

/// The steps of an answer, if it is that of an answered block.
pub fn steps(answer: &str) -> Option<usize> {
    let mut words = answer.split(' ');
    words.next().filter(|verb| *verb == "block")?;
    words.next()?.parse().ok()
}

impl Editions {
    pub fn add(&mut self, session: &Session) {
        self.sessions += 1;
        for (i, call) in session.calls.iter().enumerate() {
            let (answer, edition) = (session.answers[i].as_str(), session.editions[i]);
            match call {
                Call::Block(block) => self.block(block, edition, answer),
                Call::Make { edition: number, .. } => {
                    let unknown = number.is_some_and(|n| Edition::numbered(n).is_none());
                    self.range += usize::from(answer == "refused 1");
                    self.unknown += usize::from(answer == "refused 12");
                    self.both += usize::from(answer == "refused 1" && unknown);
                    let before = i.checked_sub(1).map(|before| session.editions[before]);
                    self.remade += usize::from(before.is_some_and(|before| before != edition));
                }
                _ => (),
            }
        }
    }

    fn block(&mut self, block: &Block, edition: Edition, answer: &str) {
        self.over[edition as usize] += usize::from(is_over(block, edition));
        let Some(steps) = steps(answer).filter(|_| block.count > SHORT) else { return };
        self.long += 1;
        self.most += usize::from(block.count == LONG);
        self.walked += usize::from(steps > 1);
        self.mixed += usize::from(!block.input.is_empty());
    }

    /// What the drawn sessions lack to say much; a few can lack anything.
    pub fn shortcomings(&self) -> Vec<String> {
        let often = [
            ("long block", self.long, 1),
            ("block of 1,024", self.most, 5),
            ("long block with two steps or more", self.walked, 1),
            ("long block with an input", self.mixed, 5),
            ("count above the first ceiling", self.over[0], 10),
            ("count above the second ceiling", self.over[1], 10),
            ("make refused with 1", self.range, 5),
            ("make refused with 12", self.unknown, 10),
            ("make refused with 1 under an unknown edition", self.both, 20),
            ("make that changed the edition", self.remade, 5),
        ];
        let lacks = |(_, seen, of): &(&str, usize, usize)| seen * of < self.sessions;
        let few = often.into_iter().filter(|one| self.sessions >= 200 && lacks(one));
        few.map(|(what, _, of)| format!("fewer than one {what} in {of} sessions")).collect()
    }
}

impl fmt::Display for Editions {
    fn fmt(&self, f: &mut fmt::Formatter) -> fmt::Result {
        if self.sessions == 0 {
            return Ok(());
        }
        let [first, second] = self.over;
        writeln!(f, "\n{} sessions of both editions, beside the interpreter alone", self.sessions)?;
        writeln!(f, "{:9}  blocks of more than 128 places, {} of 1,024", self.long, self.most)?;
        writeln!(f, "{:9}  .. with two steps or more", self.walked)?;
        writeln!(f, "{:9}  .. with an input", self.mixed)?;
        writeln!(f, "{first:9}  counts above 128 refused under the first edition")?;
        writeln!(f, "{second:9}  counts above 1,024 under the second")?;
        writeln!(f, "{:9}  makes refused with 12", self.unknown)?;
        writeln!(f, "{:9}  .. with 1, {} of an unknown edition", self.range, self.both)?;
        writeln!(f, "{:9}  makes that changed the edition", self.remade)
    }
}
