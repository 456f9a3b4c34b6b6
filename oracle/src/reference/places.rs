//! The plain renderer (02, C-16): "For each place of a block it starts again from the
//! parameter as it was before the block and finds that place's value alone, without a
//! block buffer." It has nothing of walk.rs, and its own end place; what one sample is
//! and how it is mixed it takes from numbers.rs, as the walk does.

use crate::numbers::{curve_sample, exponential_sample, linear_sample, target_sample};
use crate::queue::{Event, Kind};

/// What a block starts from: its own numbers, and those of the parameter before it.
#[derive(Clone, Copy)]
pub struct Start<'a> {
    pub time: f64,
    pub period: f64,
    pub count: usize,
    pub a_rate: bool,
    pub level: f32,
    pub last: Option<(f64, f32)>,
    pub waiting: &'a [Event],
}

/// "A walk over the whole block that keeps one number" (reading 23 of 02): a place's
/// value may still change behind the place, where a target snaps.
pub struct Look<'a> {
    start: Start<'a>,
    next: f64,
    place: usize,
    /// The one number: the value of the place, once it is known.
    kept: Option<f32>,
    /// How many places are filled.
    filled: usize,
    /// The intrinsic value and the last event, as they are by now.
    pub level: f32,
    pub last: Option<(f64, f32)>,
    /// How many events are consumed; the step that stands for the next one, if it was
    /// turned into one.
    taken: usize,
    turned: Option<(f32, f64)>,
    pub steps: u32,
    pub one_valued: bool,
}

/// Whether the walk goes on with the next head.
type GoesOn = bool;

impl<'a> Look<'a> {
    /// Looks for one place's value.
    pub fn at(start: Start<'a>, place: usize) -> Self {
        let Start { time, period, count, a_rate, level, last, waiting } = start;
        let next = (count as f64).mul_add(period, time);
        let rests = waiting.first().is_none_or(|head| !head.is_ramp() && head.time > next);
        let mut look = Look {
            start,
            next,
            place,
            kept: (!a_rate).then_some(level),
            filled: 0,
            level,
            last,
            taken: 0,
            turned: None,
            steps: 1,
            one_valued: rests,
        };
        while !rests && look.head() {
            look.steps += 1;
        }
        look
    }

    /// The value: a place that no head filled has the intrinsic value at the end.
    pub fn value(&self) -> f32 {
        self.kept.unwrap_or(self.level)
    }

    /// The events that still wait.
    pub fn left(&self) -> Vec<Event> {
        let step = self.turned.map(|(value, time)| Event::new(Kind::Step, value, time));
        let rest = &self.start.waiting[self.taken + usize::from(step.is_some())..];
        step.into_iter().chain(rest.iter().cloned()).collect()
    }

    /// One head; the walk ends where there is none.
    fn head(&mut self) -> GoesOn {
        if let Some((value, time)) = self.turned {
            return self.step(value, time);
        }
        let Some(head) = self.start.waiting.get(self.taken) else { return false };
        match &head.kind {
            Kind::Step => self.step(head.value, head.time),
            Kind::Linear => self.linear(head),
            Kind::Exponential => self.exponential(head),
            Kind::Target { constant } => self.target(head, *constant),
            Kind::Curve { duration, numbers } => self.curve(head, *duration, numbers),
        }
    }

    /// "The smallest n .. with q < n + 0.5", which is the next whole number behind
    /// q - 0.5; "or count if there is none", as where q is NaN.
    fn end_place(&self, time: f64) -> usize {
        let q = (time - self.start.time).max(0.) / self.start.period;
        let n = (q - 0.5).floor() + 1.;
        (n as usize).min(self.start.count) // an infinity is the largest
    }

    /// Fills up to the end place of `end`; if ours is among these places, its value is
    /// that at its time. At K-rate the block has its value already.
    fn fill(&mut self, end: f64, value: impl Fn(f64) -> f32) {
        let run = self.filled..self.end_place(end);
        if self.start.a_rate && run.contains(&self.place) {
            let first = (run.start as f64).mul_add(self.start.period, self.start.time);
            let time = (run.start..self.place).fold(first, |t, _| t + self.start.period);
            self.kept = Some(value(time));
        }
        self.filled = run.start.max(run.end);
    }

    fn consume(&mut self, time: f64, value: f32) -> GoesOn {
        self.last = Some((time, value));
        self.level = value;
        self.taken += 1;
        self.turned = None;
        true
    }

    fn stop(&mut self, level: f32) -> GoesOn {
        self.level = level;
        false
    }

    /// "With no last event, one is first made from block time and intrinsic value."
    fn last_or_made(&mut self) -> (f64, f32) {
        let last = self.last.unwrap_or((self.start.time, self.level));
        self.last = Some(last);
        last
    }

    fn step(&mut self, value: f32, time: f64) -> GoesOn {
        let (time, level) = (if time == 0. { self.start.time } else { time }, self.level);
        self.fill(time, |_| level);
        time <= self.next && self.consume(time, value)
    }

    fn linear(&mut self, head: &Event) -> GoesOn {
        let (from, value) = self.last_or_made();
        let (length, rise) = (head.time - from, head.value - value);
        self.ramp(head, length, |t| linear_sample(from, length, value, rise, t))
    }

    fn exponential(&mut self, head: &Event) -> GoesOn {
        let (from, value) = self.last_or_made();
        let (length, ratio) = (head.time - from, head.value / value);
        if ratio.is_finite() && ratio > 0. {
            return self.ramp(head, length, |t| exponential_sample(from, length, value, ratio, t));
        }
        self.turned = Some((head.value, head.hold.unwrap_or(head.time)));
        true
    }

    /// Of no length, it has its end value at every time (02, C-18).
    fn ramp(&mut self, head: &Event, length: f64, sample: impl Fn(f64) -> f32) -> GoesOn {
        let at = |t: f64| if length <= 0. { head.value } else { sample(t) };
        let end = head.hold.unwrap_or(head.time);
        self.fill(end, at);
        match head.hold {
            _ if end >= self.next => self.stop(at(self.next)),
            Some(hold) => self.consume(hold, at(hold)),
            None => self.consume(head.time, head.value),
        }
    }

    fn target(&mut self, head: &Event, constant: f64) -> GoesOn {
        let ((_, from), level, next) = (self.last_or_made(), self.level, self.next);
        if head.time > next {
            return false; // what is left has the intrinsic value anyway
        }
        let at = |t: f64| target_sample(head.time, constant, head.value, from - head.value, t);
        let end = self.target_end(head);
        self.fill(end.unwrap_or(next), |t| if t < head.time { level } else { at(t) });
        let Some(end) = end else { return self.target_stays(head.value, at(next)) };
        self.consume(end, at(end))
    }

    fn target_end(&self, head: &Event) -> Option<f64> {
        if let Some(hold) = head.hold.filter(|hold| *hold < self.next) {
            return Some(hold);
        }
        let behind = self.start.waiting.get(self.taken + 1)?;
        if behind.is_ramp() {
            return Some(self.start.time.max(head.time));
        }
        Some(behind.time).filter(|time| *time < self.next)
    }

    /// "Subnormal samples (K-rate: its value) become 0 where the target is 0", also that
    /// of a place which an earlier head filled.
    fn target_stays(&mut self, target: f32, value: f32) -> GoesOn {
        if (target - value).abs() < 1e-10 {
            let flushed = |kept: f32| if kept.is_subnormal() { 0. } else { kept };
            self.kept = self.kept.map(|kept| if target == 0. { flushed(kept) } else { kept });
            self.turned = Some((target, self.next));
            return self.stop(target);
        }
        self.stop(value)
    }

    fn curve(&mut self, head: &Event, duration: f64, numbers: &[f32]) -> GoesOn {
        let level = self.level;
        if head.time > self.next {
            return false;
        }
        let at = |t: f64| curve_sample(head.time, duration, numbers, t).0;
        let end = head.hold.unwrap_or(head.time + duration);
        self.fill(end, |t| if t < head.time { level } else { at(t) });
        match head.hold {
            _ if end >= self.next => self.stop(at(self.next)),
            Some(hold) => self.consume(hold, at(hold)),
            None => self.consume(end, numbers[numbers.len() - 1]),
        }
    }
}
