//! The self-test: faults planted in the port's answers, before the judging.
//! Six, one for each field that is compared, and two just beyond 01's limits; two
//! that the reference alone can find, where the Rust has nothing to compare; six of
//! the editions, which the Rust has not; five of `plain`; and six of cards.

use crate::card_faults::{cut_first, high_byte_first, hold_saved, kept_fields, later, own_first};
use crate::edition_faults::{behind_128, kept, over_first, over_second, unknown_first, unmarked};
use crate::plain_faults::{k_stays, not_carried, plain_behind_128, steps_summed, stops_at_place};
use crate::shrink::shrunk;
use crate::sides::{Plant, Played, Sides};
use comparing::session::Session;
use comparing::verdict::{judge, Verdict};
use comparing::{out, plain};
use reference::near::Near;
use reference::session::Call;

/// Which comparison must find a fault.
#[derive(Clone, Copy, PartialEq)]
enum With {
    Rust,
    Reference,
}

impl With {
    /// The call at which it finds one.
    fn finds(self, verdict: &Verdict) -> Option<usize> {
        match self {
            With::Rust => verdict.otherwise.as_ref().map(|(i, _)| *i),
            With::Reference => verdict.not_01,
        }
    }
}

type Fault = (&'static str, Plant, With);

const FAULTS: [Fault; 16] = [
    ("a sample's last bit turned", sample, With::Rust),
    ("the current value's last bit turned", current, With::Rust),
    ("one-valued turned", one_valued, With::Rust),
    ("the intrinsic value's last bit turned", intrinsic, With::Rust),
    ("the last event a moment later", last_event, With::Rust),
    ("a waiting event left out", waiting, With::Rust),
    ("a target's sample beyond its limit", beyond_target, With::Rust),
    ("an exponential's sample beyond its limit", beyond_exponential, With::Rust),
    ("the last block's end a moment later", block_end, With::Reference),
    ("behind a cancelled curve the value's last bit turned", left, With::Reference),
    ("129 places taken under the first edition", over_first, With::Reference),
    ("1,025 places taken under the second edition", over_second, With::Reference),
    ("the places behind 128 hold the one before", behind_128, With::Reference),
    ("12 ahead of 1", unknown_first, With::Reference),
    ("a refused make keeps the second edition", kept, With::Reference),
    ("the second edition not printed", unmarked, With::Reference),
];

/// In sessions with `plain` for `block`.
const PLAIN_FAULTS: [Fault; 5] = [
    ("a look that stops at its place, before a snap", stops_at_place, With::Reference),
    ("K-rate's value not turned to 0 by a snap", k_stays, With::Reference),
    ("the steps summed over the places", steps_summed, With::Reference),
    ("nothing carried on behind `plain`", not_carried, With::Reference),
    ("the places of `plain` behind 128 hold the one before", plain_behind_128, With::Reference),
];

/// In sessions with cards.
const CARD_FAULTS: [Fault; 6] = [
    ("the lengths of a saved file's fields high byte first", high_byte_first, With::Reference),
    ("a held event saved", hold_saved, With::Reference),
    ("an offset one byte later", later, With::Reference),
    ("23 ahead of 21", cut_first, With::Reference),
    ("01's own numbers ahead of 28", own_first, With::Reference),
    ("a refused file's fields kept up to its fault", kept_fields, With::Reference),
];

/// The answer with one of its words changed.
pub fn changed(answer: &str, verb: &str, i: usize, to: impl Fn(&str) -> String) -> Option<String> {
    let words: Vec<&str> = answer.split(' ').collect();
    if words[0] != verb || i >= words.len() {
        return None;
    }
    let word = to(words[i]);
    Some([&words[..i], &[word.as_str()], &words[i + 1..]].concat().join(" "))
}

/// The same digits with the last bit turned.
fn turned(word: &str) -> String {
    let bits = u64::from_str_radix(word, 16).unwrap_or(0) ^ 1;
    format!("{bits:0width$x}", width = word.len())
}

/// The last place that must have the same bits; where a zero's sign is free, none.
fn sample(session: &Session, i: usize, answer: &str) -> Option<String> {
    let claims = &session.claims[i];
    let place = claims.places.iter().rposition(|near| *near == Near::Same)?;
    let free = claims.has("zero-bound");
    (!free).then(|| changed(answer, "block", 4 + place, turned))?
}

fn current(session: &Session, i: usize, answer: &str) -> Option<String> {
    let claims = &session.claims[i];
    let free = claims.current != Near::Same || claims.has("current-value");
    (!free).then(|| changed(answer, "block", 2, turned))?
}

fn one_valued(session: &Session, i: usize, answer: &str) -> Option<String> {
    let free = session.claims[i].has("one-sample") || session.claims[i].has("places-left");
    (!free).then(|| changed(answer, "block", 3, turned))?
}

fn intrinsic(session: &Session, i: usize, answer: &str) -> Option<String> {
    let free = session.claims[i].intrinsic != Near::Same;
    (!free).then(|| changed(answer, "state", 5, turned))?
}

fn last_event(_: &Session, _: usize, answer: &str) -> Option<String> {
    let later = |word: &str| match word.split_once(':') {
        Some((time, value)) => format!("{}:{value}", turned(time)),
        None => word.to_string(),
    };
    changed(answer, "state", 7, later).filter(|other| other != answer)
}

fn block_end(_: &Session, _: usize, answer: &str) -> Option<String> {
    let later = |word: &str| match word.split_once(':') {
        Some((time, end)) => format!("{time}:{}", turned(end)),
        None => word.to_string(),
    };
    changed(answer, "state", 6, later).filter(|other| other != answer)
}

/// In the parameter's print right behind a cancel or hold that the Rust answers with
/// another value or queue, by C-12.
fn left(session: &Session, i: usize, answer: &str) -> Option<String> {
    let names = ["cancel-in-curve", "cancelled-curve"];
    let before = session.claims.get(i.checked_sub(1)?)?;
    let cancelled = names.iter().any(|name| before.has(name));
    cancelled.then(|| changed(answer, "state", 5, turned))?
}

fn waiting(_: &Session, _: usize, answer: &str) -> Option<String> {
    let mut words: Vec<&str> = answer.split(' ').collect();
    let count: usize = words.get(8).filter(|_| words[0] == "state")?.parse().ok()?;
    let fewer = count.checked_sub(1)?.to_string();
    words.remove(words.len() - 2);
    words[8] = &fewer;
    Some(words.join(" "))
}

/// Moves a sample by twice its limit, in a block without an input.
fn beyond(
    session: &Session,
    i: usize,
    answer: &str,
    kind: fn(Near) -> Option<f64>,
) -> Option<String> {
    let Call::Block(block) = &session.calls[i] else { return None };
    let places = &session.claims[i].places;
    let place = places.iter().position(|near| kind(*near).is_some())?;
    let limit = kind(places[place])?;
    let moved = |word: &str| {
        let bits = u32::from_str_radix(word, 16).unwrap_or(0);
        let to = (f64::from(f32::from_bits(bits)) + 2. * limit) as f32;
        format!("{:08x}", to.to_bits())
    };
    let found = changed(answer, "block", 4 + place, moved)?;
    (block.input.is_empty() && found != answer).then_some(found)
}

fn beyond_target(session: &Session, i: usize, answer: &str) -> Option<String> {
    let limit = |near| if let Near::Target(limit) = near { Some(limit) } else { None };
    beyond(session, i, answer, limit)
}

fn beyond_exponential(session: &Session, i: usize, answer: &str) -> Option<String> {
    let limit = |near| if let Near::Exponential(limit) = near { Some(limit) } else { None };
    beyond(session, i, answer, limit)
}

/// Plants the fault in one answer of the session (which, turns with `number`); one that
/// the Rust shall find, before its comparison ends. None if there is no answer for it.
fn found(played: &Played, plant: Plant, with: With, number: usize) -> Option<bool> {
    let session = &played.session;
    if with == With::Rust && !session.has_rust() {
        return None;
    }
    let end = session.end().filter(|_| with == With::Rust);
    let last = end.map_or(session.calls.len(), |(i, _)| i);
    let fits = |i: &usize| plant(session, *i, &played.ours[*i]).is_some();
    let lines: Vec<usize> = (0..last).filter(fits).collect();
    let line = *lines.get(number % lines.len().max(1))?;
    let mut ours = played.ours.clone();
    ours[line] = plant(session, line, &ours[line])?;
    Some(with.finds(&judge(session, &ours, &played.rust)) == Some(line))
}

/// The fault in every answer that has room for it, shrunk and printed.
fn print_shrunk(sides: &Sides, plant: Plant, with: With, sessions: &[Session]) {
    let faulty = Sides { fault: Some(plant), ..sides.clone() };
    let shows = |p: &Played| with.finds(&p.verdict).is_some();
    let Some(first) = faulty.play(sessions.to_vec()).into_iter().find(shows) else { return };
    let Played { session, ours, rust, .. } = shrunk(&faulty, first, |v| with.finds(v).is_some());
    let text = plain::session(&session.calls, "the port", &ours, &rust);
    text.lines().for_each(|line| out::print(&format!("    {line}\n")));
}

/// How many of these faults are found, each in one answer of each session that has
/// room for it.
fn found_of(sides: &Sides, sessions: &[Session], faults: &[Fault]) -> usize {
    let played = sides.play(sessions.to_vec());
    let mut all = 0;
    for (name, plant, with) in faults {
        let tries: Vec<bool> =
            played.iter().enumerate().filter_map(|(i, p)| found(p, *plant, *with, i)).collect();
        let hits = tries.iter().filter(|hit| **hit).count();
        let good = hits > 0 && hits == tries.len();
        all += usize::from(good);
        let word = if good { "found" } else { "NOT FOUND" };
        let planted = tries.len();
        out::print(&format!("{word}: {name} (planted in {planted} sessions, found in {hits})\n"));
        print_shrunk(sides, *plant, *with, sessions);
    }
    all
}

/// Each fault must be found wherever it is planted; in the sessions of one and of both
/// editions, those with `plain`, those with cards. True if all were.
pub fn self_test(sides: &Sides, sessions: [Vec<Session>; 3]) -> bool {
    let faults = [&FAULTS[..], &PLAIN_FAULTS, &CARD_FAULTS];
    let found = sessions.iter().zip(faults).map(|(some, faults)| found_of(sides, some, faults));
    let (found, all): (usize, usize) = (found.sum(), faults.concat().len());
    out::print(&format!("{found} of {all} faults were found\n"));
    found == all
}
