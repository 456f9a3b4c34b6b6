//! The port beside the Rust, on random sessions; beside the interpreter alone on those
//! of both editions and those with cards, which the Rust has not. All but the last are
//! played once more with `plain` for `block` (02, C-16), and with them some that fade out.
//!
//! `compare RUST PORT FOLDER PAGE WORDS..`, called by the script of the same
//! name with the two programs, this folder and docs/DIFFERENCES.md. WORDS:
//! `[N [SEED]]`, `--self-test` or `--page` (see README.md). Ends with 1 if
//! anything differed otherwise than the page names, with 2 if it cannot run.

mod card_faults;
mod edition_faults;
mod faults;
mod page;
mod plain_faults;
mod shrink;
mod sides;

use comparing::again::again;
use comparing::cards::cards;
use comparing::fades::fading;
use comparing::family::{editions, random, run_length};
use comparing::session::Session;
use comparing::side::Side;
use comparing::summary::Summary;
use comparing::verdict::Verdict;
use comparing::{out, plain};
use page::Page;
use sides::{Played, Sides};
use std::path::Path;

/// Sessions given to a process at a time, and faults shown before it stops.
const BATCH: usize = 200;
const SHOWN: usize = 5;

/// A session that shows what must not be, shrunk, with both answers.
fn show(sides: &Sides, played: Played, what: &str, wanted: fn(&Verdict) -> bool) {
    let title = played.session.title.clone();
    let Played { session, ours, rust, verdict } = shrink::shrunk(sides, played, wanted);
    let mut text = format!("\n{what}: session {title}, shrunk to {} calls\n", session.calls.len());
    if let Some((i, fields)) = &verdict.otherwise {
        text += &format!("(call {}: {fields})\n", i + 1);
    }
    text += &plain::session(&session.calls, "the port", &ours, &rust);
    text += &format!("in the session language:\n{}", session.text());
    if let Some(i) = verdict.not_01 {
        let (port, by_01) = (&ours[i], &session.answers[i]);
        let same = port.split(' ').zip(by_01.split(' ')).take_while(|(a, b)| a == b).count();
        let at = format!("call {}, word {}", i + 1, same + 1);
        text += &format!("{at}: the port says {port}\n    01 says {by_01}\n");
    }
    out::print(&text);
}

/// The session at this place of a run: N of the mixture, then those of both editions, then
/// those with cards.
fn drawn(seed: u64, place: usize, n: usize) -> Session {
    match (place.checked_sub(n), place.checked_sub(run_length(n))) {
        (None, _) => random(seed, place, None),
        (Some(number), None) => editions(seed, number),
        (_, Some(number)) => cards(seed, number),
    }
}

/// How many sessions are played first: one with cards for every four.
fn first_length(n: usize) -> usize {
    run_length(n) + n.div_ceil(4)
}

/// The same but for cards, with `plain` for `block`; behind them those that fade out.
fn drawn_again(seed: u64, place: usize, n: usize) -> Session {
    match place.checked_sub(run_length(n)) {
        None => again(seed, place.checked_sub(n).unwrap_or(place), &drawn(seed, place, n)),
        Some(number) => fading(seed, number),
    }
}

/// How many sessions are played with `plain`: one that fades out for every ten.
fn again_length(n: usize) -> usize {
    run_length(n) + n.div_ceil(10)
}

/// Shows what must not be, up to a few.
fn show_wrong(sides: &Sides, summary: &Summary, played: Played) {
    let (otherwise, not_01) = (summary.otherwise, summary.not_01);
    if played.verdict.otherwise.is_some() && otherwise <= SHOWN {
        show(sides, played, "DIFFERED OTHERWISE", |v| v.otherwise.is_some());
    } else if played.verdict.not_01.is_some() && not_01 <= SHOWN {
        show(sides, played, "NOT WHAT 01 SAYS", |v| v.not_01.is_some());
    }
}

/// Plays the sessions in batches, and then with `plain`; stops early once enough is wrong.
fn run(sides: &Sides, n: usize, seed: u64) -> Summary {
    let mut summary = Summary::default();
    let session = |i: usize| drawn(seed, i, n);
    play(sides, first_length(n), session, "", &mut summary, Summary::add);
    let session = |i: usize| drawn_again(seed, i, n);
    play(sides, again_length(n), session, " with `plain`", &mut summary, Summary::add_again);
    summary
}

fn play(
    sides: &Sides,
    all: usize,
    session: impl Fn(usize) -> Session,
    which: &str,
    summary: &mut Summary,
    add: fn(&mut Summary, &Session, &Verdict),
) {
    let mut done = 0;
    while done < all && summary.otherwise.max(summary.not_01) < SHOWN {
        let from = done;
        done = all.min(from + BATCH);
        for played in sides.play((from..done).map(&session).collect()) {
            add(summary, &played.session, &played.verdict);
            show_wrong(sides, summary, played);
        }
        let wrong = summary.otherwise.max(summary.not_01);
        let line = format!("{done} of {all} sessions{which}, {wrong} differed otherwise");
        out::progress(&line, from, done, all);
    }
}

/// What is wrong beside single sessions.
fn shortcomings(summary: &Summary, page: &Page, n: usize) -> Vec<String> {
    let mut all = Vec::new();
    for name in summary.names().filter(|name| !page.has(name)) {
        all.push(format!("the page does not name {name}"));
    }
    if summary.unclaimed * 2 < summary.sessions {
        all.push("fewer than half of the sessions contain no named difference".to_string());
    }
    for kind in ["step", "linear", "curve"] {
        if summary.tally.runs.get(kind).map_or(0, |runs| runs.all) * 10 < summary.sessions {
            all.push(format!("fewer than one run of a {kind} in ten sessions"));
        }
    }
    all.extend(summary.editions.shortcomings());
    all.extend(summary.carded.shortcomings());
    all.extend(summary.again.shortcomings());
    let first = summary.sessions + summary.editions.sessions + summary.carded.sessions;
    for (played, n) in [(first, first_length(n)), (summary.again.sessions, again_length(n))] {
        if played < n {
            all.push(format!("stopped after {played} of {n} sessions"));
        }
    }
    all
}

fn compare(sides: &Sides, page: &Page, n: usize, seed: u64) -> bool {
    let (files, mut wrong) = page.faults(sides);
    let found = wrong.len();
    out::print(&format!("the page's {files} small sessions on both sides: {found} faults\n"));
    let summary = run(sides, n, seed);
    out::print(&format!("\nrandom sessions of seed {seed}: {summary}"));
    wrong.extend(shortcomings(&summary, page, n));
    wrong.iter().for_each(|line| out::print(&format!("WRONG: {line}\n")));
    wrong.is_empty() && summary.otherwise == 0 && summary.not_01 == 0
}

fn main() {
    let words: Vec<String> = std::env::args().skip(1).collect();
    let (programs, rest) = words.split_at(words.len().min(4));
    let [rust, port, folder, page] = programs else {
        eprintln!("compare RUST PORT FOLDER PAGE [N [SEED] | --self-test | --page]");
        std::process::exit(2);
    };
    let side = |path: &String| Side { path: path.into() };
    let sides = Sides { rust: side(rust), port: side(port), fault: None };
    let folder = Path::new(folder);
    let page = Page::read(Path::new(page), folder.join("differences"), folder.join("page"));
    let number = |i: usize, otherwise: u64| rest.get(i).map_or(Some(otherwise), |w| w.parse().ok());
    let good = match (rest.first().map(String::as_str), number(0, 2000), number(1, 1)) {
        (Some("--self-test"), ..) => {
            let sessions = (0..run_length(BATCH)).map(|i| drawn(1, i, BATCH)).collect();
            let again = (0..again_length(BATCH)).map(|i| drawn_again(1, i, BATCH)).collect();
            let carded = (0..BATCH).map(|i| cards(1, i)).collect();
            faults::self_test(&sides, [sessions, again, carded])
        }
        (Some("--page"), ..) => {
            page.print(&sides);
            true
        }
        (_, Some(n), Some(seed)) => compare(&sides, &page, n as usize, seed),
        _ => {
            eprintln!("oracle/compare [N [SEED]], --self-test or --page");
            std::process::exit(2);
        }
    };
    std::process::exit(i32::from(!good));
}
