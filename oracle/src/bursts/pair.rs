//! A pair: one session twice, with a burst of cancels in it on one side and one
//! cancel in its place on the other. No answer of the port is at hand here.

use crate::times::{edges, times};
use comparing::draw::Draw;
use comparing::family::{editions, random, seeded};
use comparing::session::Session;
use reference::edition::Edition;
use reference::param::Reference;
use reference::session::Call;

/// How many numbers a store must have, or a cancel is refused.
const STORE: usize = 4096;

#[derive(Clone)]
pub struct Pair {
    pub title: String,
    /// Without `state`: so the first one stands behind the burst.
    pub before: Vec<Call>,
    pub burst: Vec<Call>,
    /// The one cancel; none where no cancel of the burst is accepted.
    pub one: Vec<Call>,
    /// A `state`, the session's other calls, a `state`.
    pub behind: Vec<Call>,
    /// How many numbers the store has that is lent at the burst.
    pub lent: usize,
    /// Of the parameter, there.
    pub edition: Edition,
    pub does: Does,
}

/// What a burst does, by the reference.
#[derive(Clone, Copy, Default)]
pub struct Does {
    /// How many of its cancels take an event.
    pub takers: usize,
    /// How many events it leaves.
    pub left: usize,
    /// The intrinsic value is another behind it.
    pub moves: bool,
}

/// What a cancel or hold at this time is answered where so many numbers are lent.
pub fn answer_to(time: f64, lent: usize) -> &'static str {
    if !time.is_finite() {
        "refused 2"
    } else if time < 0. {
        "refused 3"
    } else if lent != STORE {
        "refused 14"
    } else {
        "ok"
    }
}

/// The pair of this number: the session that `compare` draws by it, cut in two.
pub fn drawn(seed: u64, number: usize) -> Pair {
    cut_in_two(seeded(!seed, number), random(seed, number, None))
}

/// The same of both editions.
pub fn of_editions(seed: u64, number: usize) -> Pair {
    cut_in_two(seeded(!seed, number), editions(seed, number))
}

fn cut_in_two(mut draw: Draw, session: Session) -> Pair {
    let Session { title, calls, .. } = session;
    let cut = cut(&mut draw, &calls);
    let (mut before, behind) = (calls[..cut].to_vec(), calls[cut..].to_vec());
    let lent = before.iter().rev().find_map(lent_by).unwrap_or(STORE);
    let reference = played(&before);
    let times = times(&mut draw, edges(&before, reference.waiting()));
    let burst: Vec<Call> = times.into_iter().map(Call::Cancel).collect();
    let edition = reference.edition();
    let does = does(reference, &burst);
    before.retain(|call| *call != Call::State);
    let mut behind = [vec![Call::State], behind].concat();
    if behind.last() != Some(&Call::State) {
        behind.push(Call::State);
    }
    let pair = Pair { title, before, burst, one: Vec::new(), behind, lent, edition, does };
    pair.with(least)
}

fn does(mut reference: Reference, burst: &[Call]) -> Does {
    let value = reference.intrinsic().to_bits();
    let mut does = Does::default();
    for call in burst {
        let waited = reference.waiting().len();
        reference.answer(call);
        does.left = reference.waiting().len();
        does.takers += usize::from(does.left < waited);
    }
    Does { moves: reference.intrinsic().to_bits() != value, ..does }
}

/// Behind which call the burst comes: mostly where events wait, often more than one,
/// and right behind a block, where a head may run; with a block still to come.
fn cut(draw: &mut Draw, calls: &[Call]) -> usize {
    let mut reference = Reference::empty();
    let (few, block) = (draw.pick(&[0, 1, 1, 2, 2, 2, 3, 3, 4]), draw.percent(50));
    let mut best = (false, 0);
    let mut places = Vec::new();
    let is_block = |call: &Call| matches!(call, Call::Block(_));
    let end = calls.iter().rposition(is_block).unwrap_or(calls.len());
    for (i, call) in calls[..end.max(1)].iter().enumerate() {
        reference.answer(call);
        let after = is_block(call) || !block;
        let found = (after, reference.waiting().len().min(few));
        if found > best {
            places.clear();
            best = found;
        }
        if found == best {
            places.push(i + 1);
        }
    }
    draw.pick(&places)
}

fn played(calls: &[Call]) -> Reference {
    let mut reference = Reference::empty();
    calls.iter().for_each(|call| _ = reference.answer(call));
    reference
}

fn lent_by(call: &Call) -> Option<usize> {
    match call {
        Call::Lend(n) => Some(*n),
        Call::Make { .. } => Some(STORE),
        _ => None,
    }
}

/// The accepted time that the one cancel has.
pub fn least(times: &[f64]) -> Option<f64> {
    times.iter().copied().reduce(f64::min)
}

impl Pair {
    /// The times of the burst's cancels that are accepted, with their places. A time of
    /// -0 is taken as 0.
    fn accepted(&self) -> Vec<(usize, f64)> {
        let time = |(i, call): (usize, &Call)| match call {
            Call::Cancel(t) if answer_to(*t, self.lent) == "ok" => Some((i, t + 0.)),
            _ => None,
        };
        self.burst.iter().enumerate().filter_map(time).collect()
    }

    pub fn times(&self) -> Vec<f64> {
        self.accepted().into_iter().map(|(_, time)| time).collect()
    }

    /// The same with the one cancel at this of the accepted times.
    pub fn with(self, which: fn(&[f64]) -> Option<f64>) -> Self {
        let one = which(&self.times()).map(Call::Cancel).into_iter().collect();
        Self { one, ..self }
    }

    /// A hold between two accepted cancels of the burst, and behind the one cancel;
    /// none where there are not two. Nothing says that the sides are the same then.
    pub fn with_hold(mut self, draw: &mut Draw) -> Option<Self> {
        let accepted = self.accepted();
        let (place, _) = draw.pick(accepted.get(1..).filter(|later| !later.is_empty())?);
        let times = times(draw, edges(&self.before, played(&self.before).waiting()));
        let time = times.into_iter().filter(|t| answer_to(*t, self.lent) == "ok");
        let time = time.reduce(f64::min)?;
        self.burst.insert(place, Call::Hold(time));
        self.one.push(Call::Hold(time));
        Some(self)
    }

    /// Both sides as sessions, with the reference's answers.
    pub fn sides(&self) -> [Session; 2] {
        [&self.burst, &self.one].map(|cancels| {
            let calls = [&self.before, cancels, &self.behind].map(Vec::as_slice).concat();
            Session::new(&self.title, calls)
        })
    }

    /// Both sides in the session language.
    pub fn text(&self, title: &str) -> String {
        let [burst, one] = self.sides().map(|side| side.text());
        format!("# {title}: a burst\n{burst}# {title}: one cancel\n{one}")
    }
}
