//! Of the self-test: faults of a plain renderer (02, C-16), planted as the others are, in
//! sessions with `plain` for `block`.

use crate::edition_faults::behind_128;
use comparing::editions::steps;
use comparing::session::Session;
use reference::numbers::mixed;
use reference::param::Reference;
use reference::session::{hex32, Block, Call};

/// The call, if it is a block by `plain`.
fn by_plain(call: &Call) -> Option<&Block> {
    match call {
        Call::Block(block) if block.plain => Some(block),
        _ => None,
    }
}

fn is_make(call: &Call) -> bool {
    matches!(call, Call::Make { .. })
}

/// The samples with these values at their places, put through the mix.
fn with_values(
    session: &Session,
    i: usize,
    answer: &str,
    wanted_rate: bool,
    values: impl Fn(usize) -> Option<f32>,
) -> Option<String> {
    let block = by_plain(&session.calls[i]).filter(|_| steps(answer).is_some())?;
    let made = session.calls[..i].iter().rposition(is_make)?;
    let Call::Make { min, default, max, a_rate, .. } = session.calls[made] else { return None };
    if a_rate != wanted_rate || session.answers[made] != "ok" {
        return None;
    }
    let mut words: Vec<String> = answer.split(' ').map(str::to_string).collect();
    for place in 0..block.count as usize {
        let with = block.input.get(if a_rate { place } else { 0 }).unwrap_or(&0.);
        if let Some(value) = values(place) {
            words[4 + place] = hex32(mixed(with + value, min, default, max));
        }
    }
    Some(words.join(" ")).filter(|other| other != answer)
}

/// A look that stops once it has its place: a later snap leaves the sample as it is.
pub fn stops_at_place(session: &Session, i: usize, answer: &str) -> Option<String> {
    let flushed = &session.claims[i].flushed;
    let at = |place: usize| flushed.iter().find(|(n, _)| *n == place).map(|(_, value)| *value);
    with_values(session, i, answer, true, at)
}

/// The same of K-rate's one value.
pub fn k_stays(session: &Session, i: usize, answer: &str) -> Option<String> {
    let value = session.claims[i].flushed.first().map(|(_, value)| *value);
    with_values(session, i, answer, false, |_| value)
}

pub fn steps_summed(session: &Session, i: usize, answer: &str) -> Option<String> {
    let (block, steps) = (by_plain(&session.calls[i])?, steps(answer)?);
    let rest = answer.splitn(3, ' ').nth(2)?;
    let summed = format!("block {} {rest}", steps * block.count as usize);
    Some(summed).filter(|other| other != answer)
}

/// What a print, or the next block, is answered if the `plain` before it left the
/// parameter as it was.
pub fn not_carried(session: &Session, i: usize, answer: &str) -> Option<String> {
    let Session { calls, answers, .. } = session;
    let asks = matches!(calls[i], Call::State | Call::Block(_));
    let answered = |n: &usize| is_make(&calls[*n]) || steps(&answers[*n]).is_some();
    let last = (0..i).rev().find(answered).filter(|_| asks)?;
    by_plain(&calls[last])?;
    let mut reference = Reference::empty();
    for call in [&calls[..last], &calls[last + 1..i]].concat() {
        reference.answer(&call);
    }
    Some(reference.answer(&calls[i])).filter(|other| other != answer)
}

pub fn plain_behind_128(session: &Session, i: usize, answer: &str) -> Option<String> {
    by_plain(&session.calls[i])?;
    behind_128(session, i, answer)
}
