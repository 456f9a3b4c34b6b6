//! The stored sessions with cards: the first of a seed that are short and have what is
//! asked for by turns, then two with long files.

use comparing::carded::{refused, NUMBERS};
use comparing::cards::cards;
use comparing::draw::Draw;
use comparing::files::{full, kinds};
use comparing::session::Session;
use reference::card::written;
use reference::edition::Edition;
use reference::queue::{Event, Kind};
use reference::session::{Call, Load};

/// The most bytes of a session with its answers; of one with a file of 65 events.
const SHORT: usize = 750;
const CROWDED: usize = 3_000;

/// Parts that fields and numbers are cut by.
const PARTS: [usize; 4] = [1, 2, 3, 7];

/// What a file is refused with, but for 8: that takes 4,097 numbers.
fn numbers() -> Vec<u8> {
    NUMBERS.iter().map(|(number, _)| *number).filter(|number| *number != 8).collect()
}

/// What is asked for behind these, by turns.
const TURNS: [fn(&Session) -> bool; 6] = [
    |s| reads(s, 4),
    |s| plays(s, Edition::Second),
    |s| refuses_save(s, |call| matches!(call, Call::Hold(_))),
    |s| refuses_save(s, |call| matches!(call, Call::Poke(..))),
    |s| plays_on(s),
    |s| reads(s, 3),
];

fn loads(session: &Session) -> impl Iterator<Item = (usize, &Load)> {
    session.calls.iter().enumerate().filter_map(|(i, call)| match call {
        Call::Load(load) => Some((i, load)),
        _ => None,
    })
}

fn is_read(session: &Session, i: usize) -> bool {
    session.answers[i] == "ok"
}

/// A file of so many kinds of fields is read, in parts of such a size.
fn reads(session: &Session, least: usize) -> bool {
    let fits = |load: &Load| PARTS.contains(&load.part) && kinds(&load.file) >= least;
    loads(session).any(|(i, load)| is_read(session, i) && fits(load))
}

/// A file is refused so, in parts of this size.
fn refuses(session: &Session, number: u8, part: usize) -> bool {
    let so = |i: usize| refused(&session.answers[i]).is_some_and(|(n, _)| n == number);
    loads(session).any(|(i, load)| load.part == part && so(i))
}

/// A `save` is refused at a later place than the first, in a session with such a call.
fn refuses_save(session: &Session, is: fn(&Call) -> bool) -> bool {
    let Session { calls, answers, .. } = session;
    let later = |i: usize| refused(&answers[i]).is_some_and(|(_, place)| place > 0);
    calls.iter().any(is) && (0..calls.len()).any(|i| calls[i] == Call::Save && later(i))
}

fn is_block(session: &Session, i: usize) -> bool {
    session.answers[i].starts_with("block")
}

/// What was read from a file under this edition is played.
fn plays(session: &Session, edition: Edition) -> bool {
    let Some((from, _)) = loads(session).find(|(i, _)| is_read(session, *i)) else { return false };
    (from..session.calls.len()).any(|i| is_block(session, i) && session.editions[i] == edition)
}

/// Blocks before and behind a file that is refused, and none that is read.
fn plays_on(session: &Session) -> bool {
    let blocks = |range: std::ops::Range<usize>| range.into_iter().any(|i| is_block(session, i));
    let none = !loads(session).any(|(i, _)| is_read(session, i));
    let between = |i: usize| blocks(0..i) && blocks(i..session.calls.len());
    none && loads(session).any(|(i, _)| between(i))
}

/// Whether the session is the one for this turn.
fn is_wanted(session: &Session, turn: usize) -> bool {
    let answers: usize = session.answers.iter().map(String::len).sum();
    let size = session.text().len() + answers;
    let numbers = numbers();
    match turn.checked_sub(2 * numbers.len()) {
        Some(behind) => size < SHORT && TURNS[behind % TURNS.len()](session),
        None => {
            let number = numbers[turn % numbers.len()];
            let most = if number == 7 { CROWDED } else { SHORT };
            size < most && refuses(session, number, PARTS[turn % PARTS.len()])
        }
    }
}

/// The longest file, read in parts of 1,000 bytes and written again; and one that is
/// refused for room.
fn long(seed: u64) -> [Session; 2] {
    let (min, default, max, a_rate, edition) = (-10., 0., 10., true, None);
    let make = Call::Make { min, default, max, a_rate, edition };
    let load = |part, file| Call::Load(Load { part, file, a_rate, edition });
    let curve = |time, n| Event::new(Kind::Curve { duration: 1., numbers: vec![0.; n] }, 0., time);
    let room = written([min, default, max], &[curve(1., 4095), curve(2., 2)]);
    let (whole, step) = (load(1000, full(&mut Draw::new(seed))), Call::Step(5., 2.));
    let behind = [Call::State, Call::Save];
    [
        Session::new("full cards", vec![make.clone(), whole, Call::Save]),
        Session::new("room cards", [vec![make, step, load(7, room)], behind.to_vec()].concat()),
    ]
}

pub fn sessions(seed: u64, n: usize) -> Vec<Session> {
    let mut drawn = (0..).map(|i| cards(seed, i));
    let short = (0..n).filter_map(|turn| drawn.find(|session| is_wanted(session, turn)));
    short.collect::<Vec<_>>().into_iter().chain(long(seed)).collect()
}
