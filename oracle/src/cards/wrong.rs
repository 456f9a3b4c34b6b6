//! The self-test: faults planted in the port's answers must be found, each in every file
//! that has room for it.

use crate::batch::{Asked, Batch};
use comparing::carded::refused;
use comparing::out;
use comparing::side::Side;
use reference::card::Fault;

/// An answer made wrong, to this line of a file's; none where it has no room.
type Plant = fn(&Asked, usize) -> Option<String>;

const PLANTS: [(&str, Plant); 8] = [
    ("a refused file read", |asked, i| fault(asked, i).map(|_| "ok".to_string())),
    ("a file refused that is read", refused_all),
    ("an offset one byte later", |asked, i| other(fault(asked, i)?, |f| f.at += 1)),
    ("23 for 21", |asked, i| other(numbered(asked, i, 21)?, |f| f.number = 23)),
    ("2 for 28", |asked, i| other(numbered(asked, i, 28)?, |f| f.number = 2)),
    ("an event left out of what waits", left_out),
    ("the last byte of what is saved turned", turned),
    ("a refused file that leaves an empty parameter", emptied),
];

/// How a file is refused.
fn fault(asked: &Asked, i: usize) -> Option<Fault> {
    let (number, at) = refused(&asked.answers[i])?;
    Some(Fault { number, at })
}

fn numbered(asked: &Asked, i: usize, number: u8) -> Option<Fault> {
    fault(asked, i).filter(|fault| fault.number == number)
}

fn other(mut fault: Fault, change: fn(&mut Fault)) -> Option<String> {
    change(&mut fault);
    Some(fault.to_string())
}

fn refused_all(asked: &Asked, i: usize) -> Option<String> {
    (i == 0 && asked.is_read()).then(|| Fault { number: 22, at: 0 }.to_string())
}

fn left_out(asked: &Asked, i: usize) -> Option<String> {
    let mut words: Vec<&str> = asked.answers[i].split(' ').collect();
    let count: usize = words.get(8).filter(|_| words[0] == "state")?.parse().ok()?;
    let fewer = count.checked_sub(1)?.to_string();
    words.remove(9);
    words[8] = &fewer;
    Some(words.join(" "))
}

fn turned(asked: &Asked, i: usize) -> Option<String> {
    let file = asked.answers[i].strip_prefix("saved ")?;
    let (before, last) = file.split_at(file.len() - 1);
    let bits = u8::from_str_radix(last, 16).ok()? ^ 1;
    Some(format!("saved {before}{bits:x}"))
}

fn emptied(asked: &Asked, i: usize) -> Option<String> {
    refused(&asked.answers[0]).filter(|_| i == 1)?;
    Some("state a 00000000 00000000 00000000 00000000 - - 0 zeros".to_string())
}

/// How many files have room for the fault, and in how many it is found where it stands.
fn found(batch: &Batch, played: &[Vec<String>], plant: Plant) -> (usize, usize) {
    let (mut made, mut hits) = (0, 0);
    for (asked, answers) in batch.asked.iter().zip(played) {
        let place = (0..asked.lines.len()).find_map(|i| Some((i, plant(asked, i)?)));
        let Some((i, wrong)) = place else { continue };
        let mut answers = answers.clone();
        answers[i] = wrong;
        made += 1;
        hits += usize::from(asked.differs(&answers) == Some(i));
    }
    (made, hits)
}

/// True if each is found wherever it is planted, and nothing without one.
pub fn self_test(port: &Side, batches: impl Iterator<Item = Batch>) -> bool {
    let mut sums = [(0, 0); PLANTS.len()];
    let mut otherwise = 0;
    for batch in batches {
        let played = batch.play(port);
        let both = batch.asked.iter().zip(&played);
        otherwise += both.filter(|(asked, answers)| asked.differs(answers).is_some()).count();
        for (sum, (_, plant)) in sums.iter_mut().zip(PLANTS) {
            let (made, hits) = found(&batch, &played, plant);
            *sum = (sum.0 + made, sum.1 + hits);
        }
    }
    let mut all = 0;
    for ((made, hits), (name, _)) in sums.into_iter().zip(PLANTS) {
        let good = made > 0 && hits == made;
        all += usize::from(good);
        let word = if good { "found" } else { "NOT FOUND" };
        out::print(&format!("{word}: {name} (planted in {made} files, found in {hits})\n"));
    }
    out::print(&format!("{all} of {} faults were found\n", PLANTS.len()));
    if otherwise > 0 {
        out::print(&format!("WRONG: {otherwise} files differ without a fault\n"));
    }
    all == PLANTS.len() && otherwise == 0
}
