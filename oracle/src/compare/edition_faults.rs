//! Of the self-test: faults of the editions (02, C-19), planted as the others are.

use crate::faults::changed;
use comparing::editions::is_over;
use comparing::session::Session;
use reference::edition::Edition;
use reference::session::Call;

/// A block of one place more than the edition has, answered by zeros.
fn over(session: &Session, i: usize, edition: Edition) -> Option<String> {
    let Call::Block(block) = &session.calls[i] else { return None };
    let one_more = block.count == edition.ceiling() as u64 + 1;
    let refused = session.editions[i] == edition && one_more && is_over(block, edition);
    let zeros = " 00000000".repeat(edition.ceiling() + 1);
    refused.then(|| format!("block 1 00000000 1{zeros} clean"))
}

pub fn over_first(session: &Session, i: usize, _: &str) -> Option<String> {
    over(session, i, Edition::First)
}

pub fn over_second(session: &Session, i: usize, _: &str) -> Option<String> {
    over(session, i, Edition::Second)
}

/// As from a buffer of 128 places.
pub fn behind_128(_: &Session, _: usize, answer: &str) -> Option<String> {
    let mut words: Vec<&str> = answer.split(' ').collect();
    let (from, end) = (4 + 128, words.len() - 1);
    if words[0] != "block" || end <= from {
        return None;
    }
    let before = words[from - 1];
    words[from..end].fill(before);
    Some(words.join(" ")).filter(|other| other != answer)
}

/// Where both rows apply.
pub fn unknown_first(session: &Session, i: usize, answer: &str) -> Option<String> {
    let Call::Make { edition: Some(number), .. } = &session.calls[i] else { return None };
    let both = Edition::numbered(*number).is_none() && answer == "refused 1";
    both.then(|| "refused 12".to_string())
}

/// In the parameter's print behind a make that was refused under the second edition.
pub fn kept(session: &Session, i: usize, answer: &str) -> Option<String> {
    let is_make = |call: &Call| matches!(call, Call::Make { .. });
    let made = session.calls[..i].iter().rposition(is_make)?;
    let refused = session.answers[made] == "refused 1"
        && matches!(session.calls[made], Call::Make { edition: Some(2), .. });
    refused.then(|| changed(answer, "state", 1, |rate| format!("{rate}2")))?
}

pub fn unmarked(_: &Session, _: usize, answer: &str) -> Option<String> {
    let first = |rate: &str| rate.trim_end_matches('2').to_string();
    changed(answer, "state", 1, first).filter(|other| other != answer)
}
