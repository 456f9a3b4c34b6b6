//! Sessions with `play`'s answers, and what must hold of them.

use crate::costed::Costed;
use comparing::side::Side;
use comparing::smaller::smaller;

/// What does not hold behind a call.
#[derive(Clone, Copy, Debug, PartialEq)]
pub enum Fault {
    /// The call is not answered as the reference does: `ok`, `refused N`, `block STEPS`.
    Answer,
    /// The line of totals is not the reference's.
    Cost,
    /// The answer is another without the `cost` lines, which must change nothing.
    Moved,
    /// The reference's own totals are not as C-20 says.
    Sum,
}

pub struct Played {
    pub session: Costed,
    /// Of each call its answer and the line of totals behind it.
    costed: Vec<String>,
    /// The answers to the calls alone.
    bare: Vec<String>,
}

/// Plays all sessions in one go, with and without `cost` lines.
pub fn play(program: &Side, sessions: Vec<Costed>) -> Vec<Played> {
    let texts = |text: fn(&Costed) -> String| sessions.iter().map(text).collect::<Vec<_>>();
    let costed = program.answers_to(&texts(Costed::text));
    let bare = program.answers_to(&texts(Costed::bare));
    let both = costed.into_iter().zip(bare);
    let all = sessions.into_iter().zip(both);
    all.map(|(session, (costed, bare))| Played { session, costed, bare }).collect()
}

/// The first two words of an answer, which `play` and the session language share.
fn gist(answer: &str) -> Vec<&str> {
    let known = |word: &&str| ["ok", "refused", "block", "state"].contains(word);
    let n = match answer.split(' ').next().filter(known) {
        Some("refused" | "block") => 2,
        Some(_) => 1,
        None => return vec![answer],
    };
    answer.split(' ').take(n).map(|word| word.trim_end_matches(':')).collect()
}

impl Played {
    /// The first fault, with the call that it stands at, from 0.
    pub fn fault(&self) -> Option<(Fault, usize)> {
        (0..self.session.calls.len()).find_map(|i| self.fault_at(i).map(|fault| (fault, i)))
    }

    fn fault_at(&self, i: usize) -> Option<Fault> {
        let Costed { answers, costs, .. } = &self.session;
        let (answer, line) = (&self.costed[2 * i], &self.costed[2 * i + 1]);
        let holds = [
            (Fault::Answer, gist(answer) == gist(&answers[i])),
            (Fault::Cost, *line == costs[i].to_string()),
            (Fault::Moved, *answer == self.bare[i]),
            (Fault::Sum, self.session.broken_sum(i).is_none()),
        ];
        holds.into_iter().find(|(_, holds)| !holds).map(|(fault, _)| fault)
    }

    /// A smaller session with the same fault: the first of each round, until there is
    /// none. All of a round are played in one go.
    pub fn shrunk(self, program: &Side, fault: Fault) -> Self {
        let mut best = self;
        loop {
            let title = &best.session.title;
            let tried = smaller(&best.session.calls).into_iter();
            let played = play(program, tried.map(|calls| Costed::new(title, calls)).collect());
            let same = |p: &Played| p.fault().is_some_and(|(found, _)| found == fault);
            match played.into_iter().find(same) {
                Some(found) => best = found,
                None => return best,
            }
        }
    }

    /// The session with what its first fault stands between.
    pub fn show(&self) -> String {
        let Some((fault, i)) = self.fault() else { return String::new() };
        let Costed { title, calls, answers, costs, .. } = &self.session;
        let (answer, line) = (self.costed[2 * i].clone(), self.costed[2 * i + 1].clone());
        let sides = match fault {
            Fault::Answer => [("play", answer), ("reference", answers[i].clone())],
            Fault::Moved => [("with cost lines", answer), ("without", self.bare[i].clone())],
            Fault::Cost | Fault::Sum => [("play", line), ("reference", costs[i].to_string())],
        };
        let at = format!("session {title}, call {} of {}", i + 1, calls.len());
        let mut text = format!("\nDIFFERS ({fault:?}): {at}\n");
        for (who, said) in sides {
            text += &format!("    {who}: {said}\n");
        }
        if let Some(sum) = self.session.broken_sum(i) {
            text += &format!("    does not hold of the reference's: {sum}\n");
        }
        text + "in play's language:\n" + &self.session.text()
    }
}
