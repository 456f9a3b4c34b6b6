//! The times of a burst: at, beside, between and behind those of the events that
//! were scheduled, repeated, and now and then refused.

use comparing::draw::Draw;
use reference::queue::{Event, Kind};
use reference::session::Call;

/// Times at which a cancel may begin to take something else.
pub struct Edges {
    /// Of what waits: an event's time, a curve's end, a hold time.
    waiting: Vec<f64>,
    /// Of all calls so far.
    all: Vec<f64>,
}

pub fn edges(calls: &[Call], waiting: &[Event]) -> Edges {
    let finite = |t: &f64| t.is_finite() && *t >= 0.;
    let all = calls.iter().flat_map(called).filter(finite).chain([0.]).collect();
    Edges { waiting: waiting.iter().flat_map(waits).filter(finite).collect(), all }
}

fn called(call: &Call) -> Vec<f64> {
    match call {
        Call::Step(_, t) | Call::Linear(_, t) | Call::Exponential(_, t) => vec![*t],
        Call::Target(_, t, _) | Call::Cancel(t) | Call::Hold(t) => vec![*t],
        Call::Curve(t, d, _) => vec![*t, t + d],
        Call::Block(b) => vec![(b.count as f64).mul_add(b.period, b.time)],
        _ => Vec::new(),
    }
}

fn waits(event: &Event) -> Vec<f64> {
    let end = match &event.kind {
        Kind::Curve { duration, .. } => Some(event.time + duration),
        _ => None,
    };
    [Some(event.time), end, event.hold].into_iter().flatten().collect()
}

/// The times of one burst. Some keep off the first events, which then stay; some fall,
/// so that more than one cancel takes something.
pub fn times(draw: &mut Draw, mut edges: Edges) -> Vec<f64> {
    let mut times = Vec::new();
    if !edges.waiting.is_empty() && draw.percent(40) {
        let from = draw.pick(&edges.waiting);
        edges.waiting.retain(|t| *t >= from);
        edges.all.clone_from(&edges.waiting);
    }
    for _ in 0..=draw.below(6) {
        let next = match draw.below(20) {
            0 if !times.is_empty() => draw.pick(&times),
            1 => draw.pick(&[f64::NAN, -1., f64::INFINITY, -1., f64::NEG_INFINITY, -5e-324]),
            _ => edges.near(draw),
        };
        times.push(next);
    }
    if draw.percent(40) {
        times.sort_by(|a, b| b.total_cmp(a));
    }
    times
}

impl Edges {
    fn edge(&self, draw: &mut Draw) -> f64 {
        let waiting = !self.waiting.is_empty() && draw.percent(75);
        draw.pick(if waiting { &self.waiting } else { &self.all })
    }

    /// Just before 0 is a time that is refused.
    fn near(&self, draw: &mut Draw) -> f64 {
        let edge = self.edge(draw);
        match draw.below(16) {
            0..=6 => edge,
            7..=8 => edge.next_up(),
            9..=10 => edge.next_down(),
            11..=13 => draw.fraction().mul_add(self.edge(draw) - edge, edge),
            14 => draw.pick(&[0., -0.]),
            _ => {
                let last = self.all.iter().copied().fold(edge, f64::max);
                draw.pick(&[last.next_up(), 2. * last + 1., f64::MAX])
            }
        }
    }
}
