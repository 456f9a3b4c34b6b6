//! Rendering one block: the walk over the heads.

use crate::claims::{Claims, Reach, Run};
use crate::costs::Costs;
use crate::near::{exponential_near, target_near, Near, Value};
use crate::numbers::{curve_sample, end_place, exponential_sample, linear_sample};
use crate::numbers::{target_factor, target_sample};
use crate::queue::{Event, Kind};

/// The numbers of the block under way.
#[derive(Clone, Copy)]
pub struct Facts {
    pub time: f64,
    pub period: f64,
    pub count: usize,
    pub next: f64,
    pub a_rate: bool,
}

/// What the walk changes of a parameter, and what it writes.
pub struct Walk<'a> {
    pub facts: Facts,
    pub queue: &'a mut Vec<Event>,
    pub intrinsic: &'a mut Value,
    pub last: &'a mut Option<(f64, Value)>,
    pub claims: &'a mut Claims,
    pub costs: &'a mut Costs,
    /// The samples so far; at K-rate the block's one value.
    pub buffer: Vec<Value>,
    pub steps: u32,
}

/// Near enough to be taken as arrived.
fn snaps(target: f32, value: f32) -> bool {
    (target - value).abs() < 1e-10
}

/// A subnormal sample becomes +0. One that is near the smallest normal number
/// may be flushed by one side only.
fn flush(sample: &mut Value) {
    let size = f64::from(sample.value.abs());
    let edge = (size / f64::from(f32::MIN_POSITIVE) - 1.).abs() < 1. / 1048576.;
    if edge && !sample.is_same() {
        sample.near = Near::Open("snap-edge");
    }
    if sample.value.is_subnormal() {
        sample.value = 0.;
    }
}

/// Such a ramp has its end value at every time, held or not (02, C-18).
fn has_no_length(head: &Event, start: f64) -> bool {
    head.is_ramp() && head.time - start <= 0.
}

#[derive(PartialEq)]
enum Next {
    Stop,
    GoOn,
}

impl Walk<'_> {
    pub fn run(&mut self) {
        if !self.facts.a_rate {
            self.buffer.push(*self.intrinsic);
        }
        let mut rest = None;
        while rest.is_none() {
            self.steps += 1;
            self.costs.steps += 1;
            let Some(head) = self.queue.first().cloned() else { break };
            let (from, waiting) = (self.buffer.len(), self.queue.len());
            let no_length = self.last.is_some_and(|(start, _)| has_no_length(&head, start));
            let next = self.take(&head);
            let places = from..self.buffer.len();
            let runs = !places.is_empty() || self.queue.len() < waiting;
            if runs && !no_length {
                self.claims.runs.push(Run { kind: head.kind.name(), places });
            }
            if next == Next::Stop {
                rest = Some(Near::Open("places-left"));
            }
        }
        if self.facts.a_rate {
            let Value { value, near } = *self.intrinsic;
            let rest = Value { value, near: rest.unwrap_or(near) };
            self.buffer.resize(self.facts.count, rest);
        }
    }

    fn take(&mut self, head: &Event) -> Next {
        match head.kind {
            Kind::Step => self.step(head),
            Kind::Linear => self.linear(head),
            Kind::Exponential => self.exponential(head),
            Kind::Target { constant } => self.target(head, constant),
            Kind::Curve { duration, ref numbers } => self.curve(head, duration, numbers),
        }
    }

    /// Fills up to the end place of `end` with `sample` of each place's time.
    fn fill(&mut self, end: f64, mut sample: impl FnMut(f64) -> Value) {
        let Facts { time, period, count, a_rate, .. } = self.facts;
        if !a_rate {
            return;
        }
        let mut now = (self.buffer.len() as f64).mul_add(period, time);
        for _ in self.buffer.len()..end_place(end, time, period, count) {
            self.buffer.push(sample(now));
            now += period;
        }
    }

    fn consume(&mut self, time: f64, value: Value) -> Next {
        self.queue.remove(0);
        self.costs.finished += 1;
        *self.last = Some((time, value));
        *self.intrinsic = value;
        Next::GoOn
    }

    fn stop(&mut self, value: Value) -> Next {
        *self.intrinsic = value;
        Next::Stop
    }

    /// The last event, made from block time and intrinsic value if there is none.
    fn last_or_made(&mut self) -> (f64, Value) {
        self.claims.note(Reach::Ends, "no-last-event", self.last.is_none());
        *self.last.get_or_insert((self.facts.time, *self.intrinsic))
    }

    fn step(&mut self, head: &Event) -> Next {
        let time = if head.time == 0. { self.facts.time } else { head.time };
        let before = *self.intrinsic;
        self.fill(time, |_| before);
        if time > self.facts.next {
            return Next::Stop;
        }
        self.consume(time, Value::same(head.value))
    }

    /// The common end of the ramps: stop, or consume with the value at the end.
    /// Where the ramp has no length, the Rust has `sample` all the same.
    fn ramp(&mut self, head: &Event, start: f64, sample: impl Fn(f64) -> Value) -> Next {
        let arrived = Value { value: head.value, near: Near::Open("no-length") };
        let at = |t: f64| if has_no_length(head, start) { arrived } else { sample(t) };
        let end = head.hold.unwrap_or(head.time);
        self.fill(end, at);
        if end >= self.facts.next {
            return self.stop(at(self.facts.next));
        }
        match head.hold {
            Some(held) => self.consume(held, at(held)),
            None => self.consume(head.time, Value::same(head.value)),
        }
    }

    /// From a value that may differ all samples may; what it ends with is equal.
    fn linear(&mut self, head: &Event) -> Next {
        let (start, Value { value: from, near }) = self.last_or_made();
        let near = if near == Near::Same { near } else { Near::Open("close-start") };
        let (duration, diff) = (head.time - start, head.value - from);
        let sample = |t: f64| linear_sample(start, duration, from, diff, t);
        self.ramp(head, start, |t| Value { value: sample(t), near })
    }

    fn exponential(&mut self, head: &Event) -> Next {
        let (start, last) = self.last_or_made();
        self.claims.note(Reach::Ends, "close-start", !last.is_same());
        let from = last.value;
        let (duration, ratio) = (head.time - start, head.value / from);
        let turns = !(ratio.is_finite() && ratio > 0.);
        let rust_turns = from == 0. || from * head.value < 0.;
        self.claims.note(Reach::Ends, "exponential-test", turns != rust_turns);
        if turns {
            let time = head.hold.unwrap_or(head.time);
            self.queue[0] = Event { kind: Kind::Step, value: head.value, time, hold: None };
            self.costs.turned += 1;
            return Next::GoOn;
        }
        self.ramp(head, start, |t| {
            let value = exponential_sample(start, duration, from, ratio, t);
            Value { value, near: exponential_near(ratio, (t - start) / duration, value) }
        })
    }

    /// So near the threshold that only one side may snap: a factor that is off
    /// by a relative 2^-20 decides otherwise.
    fn claim_snap(&mut self, target: f32, diff: f32, factor: f32) {
        let part = factor / 1048576.;
        let edge = snaps(target, diff.mul_add(factor - part, target))
            != snaps(target, diff.mul_add(factor + part, target));
        self.claims.note(Reach::Ends, "snap-edge", edge);
    }

    /// Where the target ends, if it does in this block.
    fn target_end(&mut self, head: &Event) -> Option<f64> {
        let Facts { time, next, .. } = self.facts;
        let follower = self.queue.get(1);
        let ramp_next = follower.is_some_and(Event::is_ramp);
        let mut end = follower.map(Event::filed).filter(|t| *t < next);
        if ramp_next {
            end = Some(time.max(head.time));
        }
        let held = head.hold.filter(|h| *h < next);
        let late = ramp_next && head.time > time && held.is_none();
        self.claims.note(Reach::Ends, "target-before-ramp", late);
        held.or(end)
    }

    fn target(&mut self, head: &Event, constant: f64) -> Next {
        let (_, last) = self.last_or_made();
        self.claims.note(Reach::Ends, "close-start", !last.is_same());
        let next = self.facts.next;
        let before = *self.intrinsic;
        if head.time > next {
            self.claims.note(Reach::Ends, "ahead-of-start", true);
            self.fill(next, |_| before);
            return Next::Stop;
        }
        let (diff, near) = (last.value - head.value, target_near(last.value, head.value));
        let sample = |t: f64| target_sample(head.time, constant, head.value, diff, t);
        let at = |t: f64| Value { value: sample(t), near };
        let end = self.target_end(head);
        self.fill(end.unwrap_or(next), |t| if t < head.time { before } else { at(t) });
        match end {
            Some(end) => self.consume(end, at(end)),
            None => {
                self.claim_snap(head.value, diff, target_factor(head.time, constant, next));
                self.target_goes_on(head, at(next))
            }
        }
    }

    /// Not ended: the value at next block time, or the snap to the target.
    fn target_goes_on(&mut self, head: &Event, value: Value) -> Next {
        if !snaps(head.value, value.value) {
            return self.stop(value);
        }
        if head.value == 0. {
            let small = self.buffer.iter().enumerate().filter(|(_, s)| s.value.is_subnormal());
            self.claims.flushed = small.map(|(place, s)| (place, s.value)).collect();
            self.buffer.iter_mut().for_each(flush);
        }
        let (time, value) = (self.facts.next, head.value);
        self.queue[0] = Event { kind: Kind::Step, value, time, hold: None };
        self.stop(Value::same(value))
    }

    fn curve(&mut self, head: &Event, duration: f64, numbers: &[f32]) -> Next {
        let next = self.facts.next;
        let before = *self.intrinsic;
        if head.time > next {
            self.claims.note(Reach::Ends, "ahead-of-start", true);
            self.fill(next, |_| before);
            return Next::Stop;
        }
        let past = std::cell::Cell::new(false);
        let at = |t: f64| {
            let (value, over) = curve_sample(head.time, duration, numbers, t);
            past.set(past.get() || over);
            Value::same(value)
        };
        let end = head.hold.unwrap_or(head.time + duration);
        self.fill(end, |t| if t < head.time { before } else { at(t) });
        let done = if end >= next {
            self.stop(at(next))
        } else if head.hold.is_some() {
            self.consume(end, at(end))
        } else {
            self.consume(end, Value::same(numbers[numbers.len() - 1]))
        };
        self.claims.note(Reach::Ends, "curve-index", past.get());
        done
    }
}
