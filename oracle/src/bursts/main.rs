//! Bursts of cancels beside one cancel (02, C-17), on the port.
//!
//! `bursts PORT WORDS..`, called by the script of the same name with the port's
//! program. WORDS: `[N [SEED]]`, `--self-test [N [SEED]]` or `--list SEED N` (see
//! README.md). Ends with 1 if a pair differed, with 2 if it cannot run.

mod pair;
mod played;
mod tally;
mod times;
mod wrong;

use comparing::family::run_length;
use comparing::out;
use comparing::side::Side;
use pair::{drawn, of_editions, Pair};
use played::play;
use reference::session::Call;
use tally::Tally;

/// Pairs given to a process at a time, and faults shown before it stops.
const BATCH: usize = 200;
const SHOWN: usize = 5;

/// Of a listed pair: the lines of a side, and the bytes of it and of its answers.
const LINES: usize = 20;
const BYTES: usize = 2000;

/// The pair at this place of a run: N, then those of both editions.
fn at(seed: u64, place: usize, n: usize) -> Pair {
    match place.checked_sub(n) {
        None => drawn(seed, place),
        Some(number) => of_editions(seed, number),
    }
}

/// Plays the pairs in batches; stops early once enough is wrong.
fn run(port: &Side, n: usize, seed: u64) -> Tally {
    let mut tally = Tally::default();
    let all = run_length(n);
    while tally.pairs < all && tally.differed < SHOWN {
        let from = tally.pairs;
        let batch = (from..all.min(from + BATCH)).map(|i| at(seed, i, n)).collect();
        for played in play(port, batch) {
            let fault = played.fault();
            tally.add(&played.pair, fault.is_some());
            if let Some((fault, lines)) = fault.filter(|_| tally.differed <= SHOWN) {
                out::print(&played.show(fault, lines));
            }
        }
        let line = format!("{} of {all} pairs, {} differed", tally.pairs, tally.differed);
        out::progress(&line, from, tally.pairs, all);
    }
    tally
}

fn beside(port: &Side, n: usize, seed: u64) -> bool {
    let tally = run(port, n, seed);
    let wrong = tally.shortcomings(run_length(n));
    out::print(&format!("random pairs of seed {seed}: {tally}"));
    if tally.differed == 0 {
        out::print("the port gives all answers of oracle/reference, the interpreter\n");
    }
    wrong.iter().for_each(|line| out::print(&format!("WRONG: {line}\n")));
    wrong.is_empty() && tally.differed == 0
}

/// Short, with a burst of two or more that takes an event.
fn is_listed(pair: &Pair) -> bool {
    let short = pair.sides().iter().all(|side| {
        let answers: usize = side.answers.iter().map(String::len).sum();
        side.calls.len() < LINES && side.text().len() + answers < BYTES
    });
    short && pair.burst.len() > 1 && pair.does.takers > 0
}

/// The first short pairs; by turns one that moves the intrinsic value, one of which
/// more than one cancel takes events, one with a target, which leaves its value where
/// it stands, and one that leaves events.
fn list(n: usize, seed: u64) -> bool {
    let mut pairs = (0..).map(|i| drawn(seed, i));
    for k in 1..=n {
        let wanted = |pair: &Pair| match k % 4 {
            1 => pair.does.moves,
            2 => pair.does.takers > 1,
            3 => pair.before.iter().any(|call| matches!(call, Call::Target(..))),
            _ => pair.does.left > 0,
        };
        let found = pairs.find(|pair| wanted(pair) && is_listed(pair));
        found.iter().for_each(|pair| out::print(&pair.text(&format!("pair {k}"))));
    }
    true
}

/// N and SEED, as far as they are given.
fn numbers(words: &[&str]) -> Option<(usize, u64)> {
    match words {
        [] => Some((2000, 1)),
        [n] => Some((n.parse().ok()?, 1)),
        [n, seed] => Some((n.parse().ok()?, seed.parse().ok()?)),
        _ => None,
    }
}

fn main() {
    let words: Vec<String> = std::env::args().skip(1).collect();
    let words: Vec<&str> = words.iter().map(String::as_str).collect();
    let side = |path: &str| Side { path: path.into() };
    let good = match words.as_slice() {
        [_, "--list", seed, n] => numbers(&[n, seed]).map(|(n, seed)| list(n, seed)),
        [port, "--self-test", rest @ ..] => {
            numbers(rest).map(|(n, seed)| wrong::self_test(&side(port), n, seed))
        }
        [port, rest @ ..] => numbers(rest).map(|(n, seed)| beside(&side(port), n, seed)),
        [] => None,
    };
    let Some(good) = good else {
        eprintln!("oracle/bursts [N [SEED]], --self-test [N [SEED]] or --list SEED N");
        std::process::exit(2);
    };
    std::process::exit(i32::from(!good));
}
