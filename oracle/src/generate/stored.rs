//! The stored sessions of both editions: the first of a seed that are short and have
//! what is asked for by turns.

use comparing::editions::{is_over, steps};
use comparing::family::editions;
use comparing::session::Session;
use reference::edition::Edition;
use reference::session::{Block, Call};

/// What is asked for, and the most bytes of such a session with its answers: they are
/// kept small, though a block of 1,024 has 9 KB.
type Turn = (fn(&Session) -> bool, usize);

const TURNS: [Turn; 13] = [
    (|s| moves_last(s), 13_000),
    (|s| takes(s, 4, |b| b.input.len() > 300), 9_000),
    (|s| is_remade(s) && blocks(s, Edition::First).any(|(b, _)| is_over(b, Edition::First)), 6_000),
    (|s| runs(s, |call| matches!(call, Call::Curve(..))), 6_000),
    (|s| plays_on(s, |b| b.count == 1025), 9_000),
    (|s| runs(s, |call| matches!(call, Call::Exponential(..))), 6_000),
    (|s| is_remade(s) && s.answers.iter().any(|a| a == "refused 12"), 6_000),
    (|s| runs(s, |call| matches!(call, Call::Target(..))), 6_000),
    (|s| takes(s, 20, |_| true), 12_000),
    (|s| plays_on(s, |b| b.input.len() as u64 + 1 == b.count), 9_000),
    (|s| plays_on(s, |b| b.out as u64 + 1 == b.count), 9_000),
    (|s| runs(s, |call| matches!(call, Call::Target(v, ..) if *v == 0.)), 6_000),
    (|s| takes(s, 3, |b| b.time >= 3e9 && b.period < 0.5), 6_000),
];

/// The blocks of an edition, with their answers.
fn blocks(session: &Session, edition: Edition) -> impl Iterator<Item = (&Block, &str)> {
    let Session { calls, answers, editions, .. } = session;
    let of = move |i: &usize| editions[*i] == edition;
    (0..calls.len()).filter(of).filter_map(|i| match &calls[i] {
        Call::Block(block) => Some((block, answers[i].as_str())),
        _ => None,
    })
}

/// A long block has so many steps.
fn is_long(block: &Block, answer: &str, least: usize) -> bool {
    block.count > 128 && steps(answer) >= Some(least)
}

/// Such a block is long and has so many steps.
fn takes(session: &Session, least: usize, is: fn(&Block) -> bool) -> bool {
    blocks(session, Edition::Second).any(|(b, answer)| is(b) && is_long(b, answer, least))
}

/// A block of 1,024 takes heads, and its last place differs from the one before.
fn moves_last(session: &Session) -> bool {
    blocks(session, Edition::Second).any(|(block, answer)| {
        let mut words = answer.rsplit(' ').skip(1);
        let apart = words.next() != words.next();
        block.count == 1024 && is_long(block, answer, 3) && apart
    })
}

/// Such a call is taken, and behind it two blocks are long and take a head.
fn runs(session: &Session, is: fn(&Call) -> bool) -> bool {
    let Session { calls, answers, .. } = session;
    let taken = |i: &usize| is(&calls[*i]) && answers[*i] == "ok";
    let long = |i: &usize| match &calls[*i] {
        Call::Block(block) => is_long(block, &answers[*i], 2),
        _ => false,
    };
    let from = (0..calls.len()).find(taken).unwrap_or(calls.len());
    (from..calls.len()).filter(long).count() >= 2
}

/// Such a block is refused, and behind it a long one is answered.
fn plays_on(session: &Session, is: fn(&Block) -> bool) -> bool {
    let mut behind = blocks(session, Edition::Second).skip_while(|(block, _)| !is(block));
    behind.any(|(block, answer)| is_long(block, answer, 1))
}

/// Made under one edition and under the other, each with an answered block.
fn is_remade(session: &Session) -> bool {
    let answered = |edition| blocks(session, edition).any(|(_, answer)| steps(answer).is_some());
    answered(Edition::First) && answered(Edition::Second)
}

pub fn sessions(seed: u64, n: usize) -> Vec<Session> {
    let mut drawn = (0..).map(|i| editions(seed, i));
    let size = |s: &Session| s.text().len() + s.answers.iter().map(String::len).sum::<usize>();
    let mut found = Vec::new();
    for (wanted, most) in TURNS.iter().cycle().take(n) {
        found.extend(drawn.find(|s| size(s) < *most && wanted(s)));
    }
    found
}
