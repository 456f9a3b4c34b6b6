//! Sessions said once more with `plain` for `block` (02, C-16), what they come to, and
//! its print. The answers must be those of the first time.

use crate::editions::steps;
use crate::family::seeded;
use crate::session::Session;
use reference::session::{Block, Call};
use std::fmt;

/// Draws of their own, so that the sessions of a seed stay what they are.
const APART: u64 = 16 << 32;

/// The session of this number once more: every second one with `plain` for every block,
/// the others with `plain` or `block`, by a toss for each.
pub fn again(seed: u64, number: usize, session: &Session) -> Session {
    let mut draw = seeded(seed ^ APART, number);
    let all = number.is_multiple_of(2);
    let calls = session.calls.iter().map(|call| said(call, all || draw.percent(50)));
    Session::new(&format!("{}, again", session.title), calls.collect())
}

fn said(call: &Call, plain: bool) -> Call {
    match call {
        Call::Block(block) => Call::Block(Block { plain, ..block.clone() }),
        _ => call.clone(),
    }
}

#[derive(Default)]
pub struct Again {
    pub sessions: usize,
    /// Sessions in which a block is said by either word.
    both: usize,
    /// Blocks by `plain` that were answered, and their places; of these blocks those of
    /// K-rate, of more places than the first edition has, with two steps or more.
    blocks: usize,
    places: usize,
    k_rate: usize,
    long: usize,
    walked: usize,
    /// .. in which a snap turned a subnormal value to 0, at A-rate and at K-rate.
    flushed: [usize; 2],
    refused: usize,
}

impl Again {
    pub fn add(&mut self, session: &Session) {
        self.sessions += 1;
        let (mut k_rate, mut words) = (false, [false; 2]);
        for (i, call) in session.calls.iter().enumerate() {
            match call {
                Call::Make { a_rate, .. } => k_rate = !a_rate && session.answers[i] == "ok",
                Call::Block(block) => {
                    words[usize::from(block.plain)] = true;
                    self.block(session, i, block, k_rate);
                }
                _ => (),
            }
        }
        self.both += usize::from(words == [true; 2]);
    }

    fn block(&mut self, session: &Session, i: usize, block: &Block, k_rate: bool) {
        if !block.plain {
            return;
        }
        let Some(steps) = steps(&session.answers[i]) else { return self.refused += 1 };
        self.blocks += 1;
        self.places += block.count as usize;
        self.k_rate += usize::from(k_rate);
        self.long += usize::from(block.count > 128);
        self.walked += usize::from(steps > 1);
        let flushed = !session.claims[i].flushed.is_empty();
        self.flushed[usize::from(k_rate)] += usize::from(flushed);
    }

    /// What the sessions lack to say much; a few can lack anything.
    pub fn shortcomings(&self) -> Vec<String> {
        let often = [
            ("block by `plain`", self.blocks, 1),
            ("such block at K-rate", self.k_rate, 2),
            ("such block of more than 128 places", self.long, 10),
            ("such block with two steps or more", self.walked, 1),
            ("such block in which a sample became 0 by a snap", self.flushed[0], 40),
            ("such block in which K-rate's value did", self.flushed[1], 200),
            ("`plain` refused", self.refused, 20),
            ("session with both words", self.both, 4),
        ];
        let lacks = |(_, seen, of): &(&str, usize, usize)| seen * of < self.sessions;
        let few = often.into_iter().filter(|one| self.sessions >= 200 && lacks(one));
        few.map(|(what, _, of)| format!("fewer than one {what} in {of} sessions")).collect()
    }
}

impl fmt::Display for Again {
    fn fmt(&self, f: &mut fmt::Formatter) -> fmt::Result {
        if self.sessions == 0 {
            return Ok(());
        }
        let [a_rate, k_rate] = self.flushed;
        let sessions = self.sessions;
        writeln!(f, "\n{sessions} sessions with `plain` for `block`: these once more, and fades")?;
        writeln!(f, "{:9}  blocks by the plain renderer, {} places", self.blocks, self.places)?;
        writeln!(f, "{:9}  .. at K-rate", self.k_rate)?;
        writeln!(f, "{:9}  .. of more than 128 places", self.long)?;
        writeln!(f, "{:9}  .. with two steps or more", self.walked)?;
        writeln!(f, "{a_rate:9}  .. in which samples became 0 by a later snap")?;
        writeln!(f, "{k_rate:9}  .. in which K-rate's value did")?;
        writeln!(f, "{:9}  refused", self.refused)?;
        writeln!(f, "{:9}  sessions with `block` and `plain`", self.both)
    }
}
