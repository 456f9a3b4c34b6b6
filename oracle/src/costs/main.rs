//! What a session costs (02, C-20): the totals of the port's program `play` beside
//! those of the reference, behind every call.
//!
//! `costs PLAY WORDS..`, called by the script of the same name with the program.
//! WORDS: `[N [SEED]]` or `--self-test [N [SEED]]` (see README.md). Ends with 1 if a
//! session differed, with 2 if it cannot run.

mod costed;
mod drawn;
mod played;
mod tally;
mod wrong;

use comparing::family::run_length;
use comparing::out;
use comparing::side::Side;
use costed::Costed;
use drawn::{drawn, of_editions};
use played::play;
use reference::session::Call;
use tally::Tally;

/// Sessions given to a process at a time, and faults shown before it stops.
const BATCH: usize = 200;
const SHOWN: usize = 5;

/// Sessions that are also played without their `make`, each by a process of its own.
const UNMADE: usize = 5;

/// The session at this place of a run: N, then those of both editions.
fn at(seed: u64, place: usize, n: usize) -> Costed {
    match place.checked_sub(n) {
        None => drawn(seed, place),
        Some(number) => of_editions(seed, number),
    }
}

/// Plays the sessions in batches; stops early once enough differ.
fn run(program: &Side, n: usize, seed: u64) -> Tally {
    let mut tally = Tally::default();
    let all = run_length(n);
    while tally.sessions < all && tally.differ < SHOWN {
        let from = tally.sessions;
        let batch = (from..all.min(from + BATCH)).map(|i| at(seed, i, n)).collect();
        for played in play(program, batch) {
            let fault = played.fault();
            tally.add(&played.session, fault.is_some());
            if let Some((fault, _)) = fault.filter(|_| tally.differ <= SHOWN) {
                out::print(&played.shrunk(program, fault).show());
            }
        }
        let line = format!("{} of {all} sessions, {} differ", tally.sessions, tally.differ);
        out::progress(&line, from, tally.sessions, all);
    }
    tally
}

/// Before the first `make` the totals are 0, and the calls count. How many differ.
fn unmade(program: &Side, seed: u64) -> usize {
    let mut differ = 0;
    for i in 0..UNMADE {
        let Costed { title, mut calls, .. } = drawn(seed, i);
        calls[0] = Call::State;
        let session = Costed::new(&format!("{title}, without its make"), calls);
        for played in play(program, vec![session]) {
            differ += usize::from(played.fault().is_some());
            out::print(&played.show());
        }
    }
    differ
}

fn beside(program: &Side, n: usize, seed: u64) -> bool {
    let differ = unmade(program, seed);
    out::print(&format!("{UNMADE} sessions without a make: {differ} differ\n"));
    let tally = run(program, n, seed);
    out::print(&format!("random sessions of seed {seed}: {tally}"));
    let wrong = tally.shortcomings(run_length(n));
    wrong.iter().for_each(|line| out::print(&format!("WRONG: {line}\n")));
    wrong.is_empty() && differ + tally.differ == 0
}

/// N and SEED, as far as they are given.
fn numbers(words: &[&str]) -> Option<(usize, u64)> {
    match words {
        [] => Some((2000, 1)),
        [n] => Some((n.parse().ok()?, 1)),
        [n, seed] => Some((n.parse().ok()?, seed.parse().ok()?)),
        _ => None,
    }
}

fn main() {
    let words: Vec<String> = std::env::args().skip(1).collect();
    let words: Vec<&str> = words.iter().map(String::as_str).collect();
    let side = |path: &str| Side { path: path.into() };
    let good = match words.as_slice() {
        [program, "--self-test", rest @ ..] => {
            numbers(rest).map(|(n, seed)| wrong::self_test(&side(program), n, seed))
        }
        [program, rest @ ..] => numbers(rest).map(|(n, seed)| beside(&side(program), n, seed)),
        [] => None,
    };
    let Some(good) = good else {
        eprintln!("oracle/costs [N [SEED]] or --self-test [N [SEED]]");
        std::process::exit(2);
    };
    std::process::exit(i32::from(!good));
}
