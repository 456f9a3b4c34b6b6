//! The driver: a child module of param.rs, declared by one line that the build
//! puts behind the unchanged text. Being a child it can call and read what is
//! private there. It plays the calls of a session on the Rust's parameter.
//!
//! The way of a call is the library's own: the public method of `AudioParam`
//! posts a message, `AudioParamProcessor::onmessage` takes it in, at once and
//! in the order of the calls. A block is `compute_intrinsic_values` with the
//! session's time, period and count, then `mix_to_output`.

use super::*;
use crate::session::{curve_numbers, hex32, hex64, list32, Block, Call};
use std::panic::{catch_unwind, AssertUnwindSafe};

pub(crate) struct Oracle {
    param: AudioParam,
    processor: AudioParamProcessor,
    /// A panic left the parameter half changed; the library frees such a node.
    broken: bool,
    /// Made under another edition than the first, or behind a file: the Rust has no such
    /// parameter, and cannot tell whether the file is read.
    absent: bool,
}

impl Oracle {
    /// What the session language starts with: all numbers 0, A-rate.
    pub(crate) fn new() -> Self {
        Self::made(0., 0., 0., true)
    }

    fn made(min_value: f32, default_value: f32, max_value: f32, a_rate: bool) -> Self {
        let automation_rate = if a_rate { AutomationRate::A } else { AutomationRate::K };
        let name = String::new();
        let descriptor =
            AudioParamDescriptor { name, automation_rate, default_value, min_value, max_value };
        let (param, processor) = audio_param_pair(descriptor, AudioContextRegistration::default());
        Self { param, processor, broken: false, absent: false }
    }

    /// The answer to a call; a panic is answered `panic`, what the Rust has not `-`.
    pub(crate) fn answer(&mut self, call: &Call) -> String {
        match call {
            Call::Make { edition, .. } => self.absent = edition.is_some_and(|number| number != 1),
            Call::Load(_) => self.absent = true,
            _ => (),
        }
        match call {
            _ if self.absent || *call == Call::Save => "-".to_string(),
            Call::Make { min, default, max, a_rate, .. } => {
                self.make(*min, *default, *max, *a_rate)
            }
            Call::Lend(_) | Call::Poke(..) => "ok".to_string(), // the Rust has no store
            _ if self.broken => "panic".to_string(),
            Call::Block(block) => self.block(block),
            Call::State => self.state(),
            _ => self.schedule(call),
        }
    }

    /// A panic leaves no parameter in the Rust; the session goes on with zeros.
    fn make(&mut self, min: f32, default: f32, max: f32, a_rate: bool) -> String {
        let made = catch_unwind(|| Self::made(min, default, max, a_rate));
        let answer = if made.is_ok() { "ok" } else { "panic" };
        *self = made.unwrap_or_else(|_| Self::new());
        answer.to_string()
    }

    /// The checks of the calls and of the intake stand before any change, so
    /// the parameter goes on after a panic there; but not if the queue was left
    /// unsorted (a NaN among its times).
    fn schedule(&mut self, call: &Call) -> String {
        let done = catch_unwind(AssertUnwindSafe(|| {
            self.send(call);
            while let Some(mut message) = self.param.registration.next_message() {
                self.processor.onmessage(&mut *message);
            }
        }));
        self.broken = self.processor.event_timeline.dirty;
        if done.is_ok() { "ok" } else { "panic" }.to_string()
    }

    fn send(&self, call: &Call) {
        match call {
            Call::Set(v) => self.param.set_value(*v),
            Call::Step(v, t) => self.param.set_value_at_time(*v, *t),
            Call::Linear(v, t) => self.param.linear_ramp_to_value_at_time(*v, *t),
            Call::Exponential(v, t) => self.param.exponential_ramp_to_value_at_time(*v, *t),
            Call::Target(v, t, tc) => self.param.set_target_at_time(*v, *t, *tc),
            Call::Curve(t, d, values) => self.param.set_value_curve_at_time(values, *t, *d),
            Call::Cancel(t) => self.param.cancel_scheduled_values(*t),
            Call::Hold(t) => self.param.cancel_and_hold_at_time(*t),
            _ => unreachable!("not a scheduling call"),
        };
    }

    /// Lengths that no quantum has are a panic before anything is called. All
    /// numbers are taken as they are: the Rust tests neither time nor period.
    fn block(&mut self, b: &Block) -> String {
        let quantum = RENDER_QUANTUM_SIZE as u64;
        let fits = b.input.is_empty() || b.input.len() as u64 == b.count;
        if b.count < 1 || b.count > quantum || (b.out as u64) < b.count || !fits {
            return "panic".to_string();
        }
        let count = b.count as usize;
        let input = AudioRenderQuantum::of(&b.input);
        let mut output = AudioRenderQuantum::of(&[]);
        let played = catch_unwind(AssertUnwindSafe(|| {
            self.processor.compute_intrinsic_values(b.time, b.period, count);
            self.processor.mix_to_output(&input, &mut output);
        }));
        self.broken = played.is_err();
        if self.broken {
            return "panic".to_string();
        }
        self.played(&output, count)
    }

    fn played(&self, output: &AudioRenderQuantum, count: usize) -> String {
        let one = output.single_valued();
        let place = |i: usize| output.channel_data(0)[if one { 0 } else { i }];
        let samples: Vec<f32> = (0..count).map(place).collect();
        let current = hex32(self.param.value());
        format!("block - {current} {}{} -", u8::from(one), list32(&samples, " "))
    }

    fn state(&self) -> String {
        let p = &self.processor;
        let rate = if p.automation_rate.is_a_rate() { "a" } else { "k" };
        let bounds = list32(&[p.min_value, p.default_value, p.max_value], " ");
        let last = p
            .last_event
            .as_ref()
            .map_or("-".to_string(), |e| format!("{}:{}", hex64(e.time), hex32(e.value)));
        let queue = &p.event_timeline.inner;
        let events: String = queue.iter().map(|e| format!(" {}", event(e))).collect();
        let intrinsic = hex32(p.intrinsic_value);
        format!("state {rate}{bounds} {intrinsic} - {last} {}{events} -", queue.len())
    }
}

/// A waiting event as `state` prints it.
fn event(e: &AudioParamEvent) -> String {
    let (value, time) = (hex32(e.value), hex64(e.time));
    let hold = e.cancel_time.map_or("-".to_string(), hex64);
    match e.event_type {
        AudioParamEventType::LinearRampToValueAtTime => format!("linear:{value}:{time}:{hold}"),
        AudioParamEventType::ExponentialRampToValueAtTime => {
            format!("exponential:{value}:{time}:{hold}")
        }
        AudioParamEventType::SetTargetAtTime => {
            format!("target:{value}:{time}:{}:{hold}", hex64(e.time_constant.unwrap()))
        }
        AudioParamEventType::SetValueCurveAtTime => {
            let numbers = curve_numbers(e.values.as_ref().unwrap());
            format!("curve:{time}:{}:{hold}:{numbers}", hex64(e.duration.unwrap()))
        }
        _ => format!("step:{value}:{time}"),
    }
}
