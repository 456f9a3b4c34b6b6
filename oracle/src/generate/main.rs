//! The generator of sessions.
//!
//! `generate SEED N [clean|plain|wild|editions|fades|cards]`: N sessions, by default the
//! mixture that is compared, or those of both editions, those that fade out, those with
//! cards. `generate --again SEED N [clean|plain|wild|editions]`: the same as `compare` plays
//! them once more, with `plain` for `block`. `generate --list SEED REPEAT`: the stored list's
//! grid. `generate --editions SEED N`, `generate --cards SEED N`: the stored ones of both
//! editions, and with cards.
//! Before each session stands a comment with its number and its mark (README.md).

mod stored;
mod stored_cards;

use comparing::again::again;
use comparing::cards::cards;
use comparing::fades::fading;
use comparing::family::{editions, list_length, listed, random};
use comparing::out;
use comparing::plan::Family;
use comparing::session::Session;

fn print(session: &Session) {
    out::print(&format!("# {}: {}\n{}", session.title, session.mark(), session.text()));
}

/// The session of this number, of the kind that is named.
fn drawn(seed: u64, number: usize, kind: Option<&str>) -> Option<Session> {
    match kind {
        None => Some(random(seed, number, None)),
        Some("editions") => Some(editions(seed, number)),
        Some("fades") => Some(fading(seed, number)),
        Some("cards") => Some(cards(seed, number)),
        Some(name) => Family::named(name).map(|family| random(seed, number, Some(family))),
    }
}

/// What the words ask for, one after another; none if they are not read.
fn sessions(words: &[&str]) -> Option<Box<dyn Iterator<Item = Session>>> {
    let (how, words) = match words {
        [how @ ("--list" | "--editions" | "--cards" | "--again"), rest @ ..] => (*how, rest),
        _ => ("", words),
    };
    let [seed, n, kind @ ..] = words else { return None };
    let (seed, n): (u64, usize) = (seed.parse().ok()?, n.parse().ok()?);
    let kind: Option<String> = match kind {
        [] => None,
        [kind] if how.is_empty() || how == "--again" => Some(kind.to_string()),
        _ => return None,
    };
    drawn(seed, 0, kind.as_deref())?;
    let one = move |i: usize| drawn(seed, i, kind.as_deref());
    Some(match how {
        "--list" => Box::new((0..list_length(n)).map(move |i| listed(seed, i, n))),
        "--editions" => Box::new(stored::sessions(seed, n).into_iter()),
        "--cards" => Box::new(stored_cards::sessions(seed, n).into_iter()),
        "--again" => Box::new((0..n).filter_map(move |i| Some(again(seed, i, &one(i)?)))),
        _ => Box::new((0..n).filter_map(one)),
    })
}

fn main() {
    let words: Vec<String> = std::env::args().skip(1).collect();
    let words: Vec<&str> = words.iter().map(String::as_str).collect();
    let Some(sessions) = sessions(&words) else {
        eprintln!("generate [--again] SEED N [clean|plain|wild|editions|fades|cards],");
        eprintln!("generate --list SEED REPEAT   or   generate --editions|--cards SEED N");
        std::process::exit(2);
    };
    sessions.for_each(|session| print(&session));
}
