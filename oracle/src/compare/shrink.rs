//! From a session that shows something to a small one that still shows it.

use crate::sides::{Played, Sides};
use comparing::session::Session;
use comparing::smaller::smaller;
use comparing::verdict::Verdict;
use reference::session::Call;

/// Smaller sessions played in one go.
const AT_ONCE: usize = 25;

/// Takes the first smaller session of each round, until none is left.
pub fn shrunk(sides: &Sides, from: Played, wanted: impl Fn(&Verdict) -> bool) -> Played {
    let mut best = from;
    while let Some(found) = first_smaller(sides, &best.session, &wanted) {
        best = found;
    }
    best
}

fn first_smaller(
    sides: &Sides,
    session: &Session,
    wanted: impl Fn(&Verdict) -> bool,
) -> Option<Played> {
    let tried = smaller(&session.calls);
    tried.chunks(AT_ONCE).find_map(|some| {
        let new = |calls: &Vec<Call>| Session::new(&session.title, calls.clone());
        let played = sides.play(some.iter().map(new).collect());
        played.into_iter().find(|p| wanted(&p.verdict))
    })
}
