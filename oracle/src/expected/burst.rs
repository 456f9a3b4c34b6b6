//! Sessions two by two: the second has one cancel, or none, where the first has a
//! burst of them (02, C-17).

use comparing::session::Session;
use reference::session::{write_call, Call};

/// A session in three parts. A cancel that both sides have belongs to both bursts.
struct Parts<'a> {
    /// The lines up to the cancels right before the first `state`.
    before: Vec<String>,
    /// The least time of those cancels that are accepted.
    least: Option<f64>,
    /// From that `state` on.
    behind: Vec<String>,
    answers: &'a [String],
}

fn parts(session: &Session) -> Option<Parts<'_>> {
    let Session { calls, answers, .. } = session;
    let state = calls.iter().position(|call| *call == Call::State)?;
    let is_cancel = |call: &Call| matches!(call, Call::Cancel(_));
    let from = calls[..state].iter().rposition(|call| !is_cancel(call)).map_or(0, |i| i + 1);
    let time = |i: usize| match calls[i] {
        Call::Cancel(t) if answers[i] == "ok" => Some(t + 0.),
        _ => None,
    };
    let lines = |calls: &[Call]| calls.iter().map(write_call).collect();
    Some(Parts {
        before: lines(&calls[..from]),
        least: (from..state).filter_map(time).reduce(f64::min),
        behind: lines(&calls[state..]),
        answers: &answers[state..],
    })
}

/// What is not the same on both sides.
fn apart(burst: &Session, one: &Session) -> Option<&'static str> {
    let (Some(a), Some(b)) = (parts(burst), parts(one)) else { return Some("a state") };
    let fields = [
        ("what stands before the cancels", a.before == b.before),
        ("the least time", a.least == b.least),
        ("what stands behind the cancels", a.behind == b.behind),
        ("an answer from the first state on", a.answers == b.answers),
    ];
    fields.into_iter().find(|(_, same)| !same).map(|(name, _)| name)
}

/// What is wrong with a text of such pairs; the answers are the reference's.
pub fn faults(sessions: &[Session]) -> Vec<String> {
    let fault = |both: &[Session]| match both {
        [burst, one] => {
            apart(burst, one).map(|what| format!("{}: {what} is not the other's", burst.title))
        }
        _ => Some("a burst without its one cancel".to_string()),
    };
    sessions.chunks(2).filter_map(fault).collect()
}
