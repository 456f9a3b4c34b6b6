//! Pairs with the port's answers, and what must hold of them.

use crate::pair::{answer_to, Pair};
use comparing::session::Session;
use comparing::side::Side;
use reference::session::{write_call, Call};

/// What does not hold of a pair.
#[derive(Clone, Copy, Debug, PartialEq)]
pub enum Fault {
    /// The sides' answers before the burst differ.
    Before,
    /// A cancel is not answered as its time says.
    Answer,
    /// The sides' answers from the first `state` on differ: not the same parameter.
    Behind,
    /// An answer is not the reference's.
    Reference,
}

pub struct Played {
    pub pair: Pair,
    /// The burst's side and the one cancel's, with the reference's answers.
    sides: [Session; 2],
    answers: [Vec<String>; 2],
}

/// Plays both sides of all pairs in one go.
pub fn play(port: &Side, pairs: Vec<Pair>) -> Vec<Played> {
    let sides: Vec<Session> = pairs.iter().flat_map(Pair::sides).collect();
    let mut answers = port.answers(&sides).into_iter();
    let mut sides = sides.into_iter();
    let mut two = || Some(([sides.next()?, sides.next()?], [answers.next()?, answers.next()?]));
    let both = pairs.into_iter().map_while(|pair| two().map(|(s, a)| (pair, s, a)));
    both.map(|(pair, sides, answers)| Played { pair, sides, answers }).collect()
}

impl Played {
    /// The first fault, with its lines on both sides, from 0.
    pub fn fault(&self) -> Option<(Fault, [usize; 2])> {
        let [burst, one] = &self.answers;
        let from = self.pair.before.len();
        let state = [from + self.pair.burst.len(), from + self.pair.one.len()];
        let both = |i: usize, j: usize| burst[i] != one[j];
        let before = (0..from).find(|i| both(*i, *i)).map(|i| (Fault::Before, [i, i]));
        let behind = (0..self.pair.behind.len()).map(|i| [state[0] + i, state[1] + i]);
        let apart = behind.into_iter().find(|[i, j]| both(*i, *j)).map(|at| (Fault::Behind, at));
        before.or_else(|| self.answered(from)).or(apart).or_else(|| self.not_01())
    }

    /// The first cancel that is not answered as its time says.
    fn answered(&self, from: usize) -> Option<(Fault, [usize; 2])> {
        let wrong = |side: usize, calls: &[Call]| {
            let one = |(i, call): (usize, &Call)| match call {
                Call::Cancel(t) | Call::Hold(t) => {
                    answer_to(*t, self.pair.lent) != self.answers[side][from + i]
                }
                _ => true,
            };
            calls.iter().enumerate().position(one)
        };
        let found = wrong(0, &self.pair.burst).or_else(|| wrong(1, &self.pair.one))?;
        Some((Fault::Answer, [from + found; 2]))
    }

    fn not_01(&self) -> Option<(Fault, [usize; 2])> {
        let first = |side: usize| {
            let (own, by_01) = (&self.answers[side], &self.sides[side].answers);
            (0..own.len()).find(|i| own[*i] != by_01[*i])
        };
        let line = first(0).or_else(|| first(1))?;
        Some((Fault::Reference, [line; 2]))
    }

    /// The pair with both answers at the fault.
    pub fn show(&self, fault: Fault, lines: [usize; 2]) -> String {
        let mut text = format!("\nDIFFERED ({fault:?}): pair {}\n", self.pair.title);
        for (i, name) in ["a burst", "one cancel"].into_iter().enumerate() {
            let (side, line) = (&self.sides[i], lines[i]);
            let said = |list: &[String]| list.get(line).cloned().unwrap_or_default();
            let call = side.calls.get(line).map(write_call).unwrap_or_default();
            text += &format!("{name}, line {}: {call}\n", line + 1);
            text += &format!("    the port: {}\n", said(&self.answers[i]));
            text += &format!("    01:       {}\n", said(&side.answers));
        }
        text + &self.pair.text("in the session language")
    }
}
