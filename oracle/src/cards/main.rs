//! Schedule files (02, C-11) by the thousand: the port beside the interpreter's reader and
//! writer.
//!
//! `cards PORT WORDS..`, called by the script of the same name with the port's program.
//! WORDS: `[--quick | --self-test] [SEED]` (see README.md). Ends with 1 if a file is
//! answered otherwise, with 2 if it cannot run.

mod batch;
mod difference;
mod drawn;
mod tally;
mod wrong;

use batch::Batch;
use comparing::out;
use comparing::side::{Side, MISSING};
use drawn::Files;
use tally::Tally;

/// The size of a text given to a process, and files shown before it stops.
const BATCH: usize = 4_000_000;
const SHOWN: usize = 5;

/// One in so many files is played by `--quick`, and by `--self-test`.
const QUICK: usize = 101;

fn batches(files: &Files) -> impl Iterator<Item = Batch> + '_ {
    let mut cases = files.cases();
    std::iter::from_fn(move || Some(Batch::of(&mut cases, BATCH)))
        .take_while(|batch| !batch.asked.is_empty())
}

/// Plays the files in batches; stops early once enough differ.
fn run(port: &Side, files: &Files) -> Tally {
    let mut tally = Tally::default();
    let all = files.count();
    for batch in batches(files) {
        let from = tally.files;
        let played = batch.play(port);
        for (asked, answers) in batch.asked.iter().zip(&played) {
            let differs = asked.differs(answers).is_some();
            tally.add(asked, differs);
            if differs {
                out::print(&difference::show(port, asked, answers));
            }
            if tally.differ == SHOWN {
                return tally;
            }
            if answers.iter().any(|answer| answer == MISSING) {
                break; // it ended early: the rest has no answer either
            }
        }
        let line = format!("{} of {all} files, {} differ", tally.files, tally.differ);
        out::progress(&line, from, tally.files, all);
    }
    tally
}

fn beside(port: &Side, seed: u64, one_in: usize) -> bool {
    let files = Files::new(seed, one_in);
    let tally = run(port, &files);
    out::print(&format!("schedule files of seed {seed}: {tally}"));
    let wrong = tally.shortcomings(files.count());
    wrong.iter().for_each(|line| out::print(&format!("WRONG: {line}\n")));
    wrong.is_empty() && tally.differ == 0
}

/// SEED, if it is given.
fn seed(words: &[&str]) -> Option<u64> {
    match words {
        [] => Some(1),
        [seed] => seed.parse().ok(),
        _ => None,
    }
}

fn main() {
    let words: Vec<String> = std::env::args().skip(1).collect();
    let words: Vec<&str> = words.iter().map(String::as_str).collect();
    let side = |path: &str| Side { path: path.into() };
    let good = match words.as_slice() {
        [port, "--quick", rest @ ..] => seed(rest).map(|seed| beside(&side(port), seed, QUICK)),
        [port, "--self-test", rest @ ..] => {
            seed(rest).map(|seed| wrong::self_test(&side(port), batches(&Files::new(seed, QUICK))))
        }
        [port, rest @ ..] => seed(rest).map(|seed| beside(&side(port), seed, 1)),
        [] => None,
    };
    let Some(good) = good else {
        eprintln!("oracle/cards [--quick | --self-test] [SEED]");
        std::process::exit(2);
    };
    std::process::exit(i32::from(!good));
}
