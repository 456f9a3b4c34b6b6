//! A session with the reference's answers and totals, and its text in `play`'s language.

use reference::costs::Costs;
use reference::param::Reference;
use reference::session::{hex64, list32, Call};

#[derive(Clone)]
pub struct Costed {
    pub title: String,
    pub calls: Vec<Call>,
    /// The reference's answer to each call, and its totals behind it.
    pub answers: Vec<String>,
    pub costs: Vec<Costs>,
}

impl Costed {
    pub fn new(title: &str, calls: Vec<Call>) -> Self {
        let mut reference = Reference::empty();
        let (mut answers, mut costs) = (Vec::new(), Vec::new());
        for call in &calls {
            answers.push(reference.answer(call));
            costs.push(reference.costs());
        }
        Self { title: title.to_string(), calls, answers, costs }
    }

    /// Each call in `play`'s language, with a `cost` behind it.
    pub fn text(&self) -> String {
        self.calls.iter().map(|call| line(call) + "\ncost\n").collect()
    }

    /// The calls alone.
    pub fn bare(&self) -> String {
        self.calls.iter().map(|call| line(call) + "\n").collect()
    }

    /// What one call added to the totals.
    pub fn added(&self, i: usize) -> Costs {
        let before = i.checked_sub(1).map_or(Costs::default(), |before| self.costs[before]);
        each(self.costs[i], before, u64::wrapping_sub)
    }

    pub fn is_refused(&self, i: usize) -> bool {
        self.answers[i].starts_with("refused")
    }

    /// The totals before each further `make`, and at the end.
    pub fn ends(&self) -> Vec<Costs> {
        let is_end = |i: &usize| self.calls.get(i + 1).is_none_or(is_make);
        (0..self.calls.len()).filter(is_end).map(|i| self.costs[i]).collect()
    }

    /// What C-20 says of the totals behind a call, and does not hold.
    pub fn broken_sum(&self, i: usize) -> Option<&'static str> {
        let Costs { steps, blocks, finished, turned, stored, cancelled, waiting } = self.costs[i];
        let from = self.calls[..=i].iter().rposition(is_make).unwrap_or(0);
        let reported: u64 = self.answers[from..=i].iter().map(|answer| reported(answer)).sum();
        let sums = [
            ("the steps reported", steps == reported),
            ("steps = blocks + finished + turned", steps == blocks + finished + turned),
            ("stored = finished + cancelled + waiting", stored == finished + cancelled + waiting),
            ("steps <= 2 x stored + blocks", steps <= self.costs[i].bound()),
        ];
        sums.into_iter().find(|(_, holds)| !holds).map(|(name, _)| name)
    }
}

fn is_make(call: &Call) -> bool {
    matches!(call, Call::Make { .. })
}

/// Number by number; a difference may be below 0, and wraps.
pub fn each(a: Costs, b: Costs, of: fn(u64, u64) -> u64) -> Costs {
    Costs {
        steps: of(a.steps, b.steps),
        blocks: of(a.blocks, b.blocks),
        finished: of(a.finished, b.finished),
        turned: of(a.turned, b.turned),
        stored: of(a.stored, b.stored),
        cancelled: of(a.cancelled, b.cancelled),
        waiting: of(a.waiting, b.waiting),
    }
}

/// The steps that an answer reports; only that of a block does.
fn reported(answer: &str) -> u64 {
    let mut words = answer.split(' ');
    let steps = words.next().filter(|verb| *verb == "block").and_then(|_| words.next());
    steps.and_then(|word| word.parse().ok()).unwrap_or(0)
}

fn values(list: &[f32]) -> String {
    list32(list, " x")
}

fn times(list: &[f64]) -> String {
    list.iter().map(|t| format!(" x{}", hex64(*t))).collect()
}

/// A call as a line of `play`: floats by their bits, an edition behind its word, no
/// count of a curve's or an input's numbers.
fn line(call: &Call) -> String {
    match call {
        Call::Make { min, default, max, a_rate, edition } => {
            let rate = if *a_rate { "a" } else { "k" };
            let edition = edition.map_or(String::new(), |n| format!(" edition {n}"));
            format!("make{} {rate}{edition}", values(&[*min, *default, *max]))
        }
        Call::Set(v) => format!("set{}", values(&[*v])),
        Call::Step(v, t) => format!("step{}{}", values(&[*v]), times(&[*t])),
        Call::Linear(v, t) => format!("linear{}{}", values(&[*v]), times(&[*t])),
        Call::Exponential(v, t) => format!("exponential{}{}", values(&[*v]), times(&[*t])),
        Call::Target(v, t, c) => format!("target{}{}", values(&[*v]), times(&[*t, *c])),
        Call::Curve(t, d, numbers) => format!("curve{}{}", times(&[*t, *d]), values(numbers)),
        Call::Cancel(t) => format!("cancel{}", times(&[*t])),
        Call::Hold(t) => format!("hold{}", times(&[*t])),
        Call::Block(b) => {
            let (times, input) = (times(&[b.time, b.period]), values(&b.input));
            format!("block{times} {} {}{input}", b.count, b.out)
        }
        Call::Lend(n) => format!("lend {n}"),
        Call::Poke(i, v) => format!("poke {i}{}", values(&[*v])),
        Call::State => "state".to_string(),
        Call::Save | Call::Load(_) => unreachable!("no card is drawn here"),
    }
}
