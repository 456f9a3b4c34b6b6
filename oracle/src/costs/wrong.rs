//! The self-test: faults planted in the reference's totals must be found to differ
//! from `play`'s lines, in every session that has room for them.

use crate::costed::{each, Costed};
use crate::drawn::drawn;
use crate::played::{play, Fault, Played};
use crate::BATCH;
use comparing::out;
use comparing::side::Side;
use reference::costs::Costs;
use reference::session::Call;

/// What a call adds to the totals, made wrong.
type Plant = fn(&Costed, usize, Costs) -> Costs;

const PLANTS: [(&str, Plant); 4] = [
    ("an exponential's turn counted as finished", turn_finished),
    ("a refused block counted, with one step", refused_block),
    ("a hold's events not counted as cancelled", hold_forgotten),
    ("a refused event counted as stored", refused_stored),
];

fn turn_finished(_: &Costed, _: usize, added: Costs) -> Costs {
    Costs { finished: added.finished + added.turned, turned: 0, ..added }
}

fn refused_block(session: &Costed, i: usize, added: Costs) -> Costs {
    match session.calls[i] {
        Call::Block(_) if session.is_refused(i) => Costs { steps: 1, blocks: 1, ..added },
        _ => added,
    }
}

fn hold_forgotten(session: &Costed, i: usize, added: Costs) -> Costs {
    match session.calls[i] {
        Call::Hold(_) => Costs { cancelled: 0, ..added },
        _ => added,
    }
}

fn refused_stored(session: &Costed, i: usize, added: Costs) -> Costs {
    match session.calls[i] {
        Call::Make { .. } | Call::Block(_) | Call::Cancel(_) | Call::Hold(_) => added,
        _ if session.is_refused(i) => Costs { stored: 1, ..added },
        _ => added,
    }
}

/// The totals with a fault in them.
fn planted(session: &Costed, plant: Plant) -> Vec<Costs> {
    let mut sum = Costs::default();
    let mut behind = |i: usize| {
        sum = each(sum, plant(session, i, session.added(i)), u64::wrapping_add);
        sum
    };
    (0..session.calls.len()).map(&mut behind).collect()
}

/// How often a fault was planted, found by `play`'s lines, and seen by a sum.
#[derive(Clone, Copy, Default)]
struct Found {
    made: usize,
    differ: usize,
    sums: usize,
}

impl Found {
    fn add(&mut self, played: &mut Played, plant: Plant) {
        let wrong = planted(&played.session, plant);
        if wrong == played.session.costs {
            return;
        }
        let right = std::mem::replace(&mut played.session.costs, wrong);
        let breaks = |i| played.session.broken_sum(i).is_some();
        self.made += 1;
        self.differ += usize::from(matches!(played.fault(), Some((Fault::Cost, _))));
        self.sums += usize::from((0..right.len()).any(breaks));
        played.session.costs = right;
    }

    /// Prints it; true if it was found wherever it was planted.
    fn is_good(self, name: &str) -> bool {
        let Found { made, differ, sums } = self;
        let good = made > 0 && differ == made;
        let word = if good { "found" } else { "NOT FOUND" };
        let line = format!("{word}: {name}: {differ} of {made} sessions made so differ");
        out::print(&format!("{line}, in {sums} a sum does not hold\n"));
        good
    }
}

/// True if each is found, and nothing without one.
pub fn self_test(program: &Side, n: usize, seed: u64) -> bool {
    let mut found = [Found::default(); PLANTS.len()];
    let mut otherwise = 0;
    for from in (0..n).step_by(BATCH) {
        let sessions = (from..n.min(from + BATCH)).map(|i| drawn(seed, i)).collect();
        for mut played in play(program, sessions) {
            otherwise += usize::from(played.fault().is_some());
            for (found, (_, plant)) in found.iter_mut().zip(PLANTS) {
                found.add(&mut played, plant);
            }
        }
    }
    let all = found.iter().zip(PLANTS).filter(|(found, (name, _))| found.is_good(name)).count();
    out::print(&format!("{all} of {} were found, of {n} sessions\n", PLANTS.len()));
    if otherwise > 0 {
        out::print(&format!("WRONG: {otherwise} differ without a fault\n"));
    }
    all == PLANTS.len() && otherwise == 0
}
