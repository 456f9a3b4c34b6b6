//! The self-test: pairs whose one cancel is a wrong one, and pairs with a hold
//! between the cancels (02: "no call standing between"), must be found to differ.

use crate::pair::{drawn, Pair};
use crate::played::{play, Fault};
use crate::BATCH;
use comparing::family::seeded;
use comparing::out;
use comparing::side::Side;

/// A pair made wrong; none where that cannot be, or changes nothing of it.
type Make = fn(Pair, u64, usize) -> Option<Pair>;

/// Of a hundred pairs made wrong so many must differ, and at least one.
const WRONG: [(&str, Make, usize); 3] = [
    ("the latest time for the least", |pair, _, _| other(pair, latest), 20),
    ("the first time for the least", |pair, _, _| other(pair, first), 20),
    ("a hold between the cancels, and behind the one", held, 0),
];

fn latest(times: &[f64]) -> Option<f64> {
    times.iter().copied().reduce(f64::max)
}

fn first(times: &[f64]) -> Option<f64> {
    times.first().copied()
}

fn other(pair: Pair, which: fn(&[f64]) -> Option<f64>) -> Option<Pair> {
    let made = pair.clone().with(which);
    (made.one != pair.one).then_some(made)
}

fn held(pair: Pair, seed: u64, number: usize) -> Option<Pair> {
    pair.with_hold(&mut seeded(seed ^ 1, number))
}

/// How many pairs were made wrong, how many of them differ from the first `state`
/// on, and how many are wrong otherwise.
fn found(port: &Side, make: Make, n: usize, seed: u64) -> (usize, usize, usize) {
    let (mut made, mut differ, mut otherwise) = (0, 0, 0);
    for from in (0..n).step_by(BATCH) {
        let numbers = from..n.min(from + BATCH);
        let pairs: Vec<Pair> = numbers.filter_map(|i| make(drawn(seed, i), seed, i)).collect();
        for played in play(port, pairs) {
            made += 1;
            match played.fault() {
                Some((Fault::Behind, _)) => differ += 1,
                Some(_) => otherwise += 1,
                None => (),
            }
        }
    }
    (made, differ, otherwise)
}

/// True if each is found often enough, and nothing else is.
pub fn self_test(port: &Side, n: usize, seed: u64) -> bool {
    let mut all = 0;
    for (name, make, percent) in WRONG {
        let (made, differ, otherwise) = found(port, make, n, seed);
        let good = differ > 0 && differ * 100 >= made * percent && otherwise == 0;
        all += usize::from(good);
        let word = if good { "found" } else { "NOT FOUND" };
        let line = format!("{word}: {name}: {differ} of {made} pairs made so differ");
        let more = if otherwise > 0 { format!(", {otherwise} otherwise") } else { String::new() };
        out::print(&format!("{line}{more}\n"));
    }
    out::print(&format!("{all} of {} were found, of {n} pairs\n", WRONG.len()));
    all == WRONG.len()
}
