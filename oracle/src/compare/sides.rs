//! The two programs that are compared, and the judging of their answers.

use comparing::session::Session;
use comparing::side::Side;
use comparing::verdict::{judge, Verdict};

/// A fault put into the port's answers, for the self-test.
pub type Plant = fn(&Session, usize, &str) -> Option<String>;

#[derive(Clone)]
pub struct Sides {
    pub port: Side,
    pub rust: Side,
    /// Planted in every answer that it can be planted in.
    pub fault: Option<Plant>,
}

/// A session with both sides' answers and the verdict.
pub struct Played {
    pub session: Session,
    pub ours: Vec<String>,
    pub rust: Vec<String>,
    pub verdict: Verdict,
}

impl Sides {
    pub fn play(&self, sessions: Vec<Session>) -> Vec<Played> {
        let (ours, rust) = (self.port.answers(&sessions), self.rust.answers(&sessions));
        let both = sessions.into_iter().zip(ours.into_iter().zip(rust));
        both.map(|(session, (ours, rust))| self.judged(session, ours, rust)).collect()
    }

    fn judged(&self, session: Session, mut ours: Vec<String>, rust: Vec<String>) -> Played {
        if let Some(plant) = self.fault {
            for (i, answer) in ours.iter_mut().enumerate() {
                *answer = plant(&session, i, answer).unwrap_or_else(|| answer.clone());
            }
        }
        let verdict = judge(&session, &ours, &rust);
        Played { session, ours, rust, verdict }
    }
}
