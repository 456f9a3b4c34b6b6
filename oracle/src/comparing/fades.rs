//! Sessions that fade out: targets that snap to 0 behind subnormal values, at both rates
//! and of both editions, some of their blocks by `plain` (02, C-16). There a place's
//! value is not known before the block's end.

use crate::draw::Draw;
use crate::family::seeded;
use crate::session::Session;
use reference::session::{Block, Call};

/// Draws of their own.
const APART: u64 = 23 << 32;

struct Fade {
    draw: Draw,
    calls: Vec<Call>,
    now: f64,
    period: f64,
    count: usize,
}

/// The session of this number.
pub fn fading(seed: u64, number: usize) -> Session {
    let mut draw = seeded(seed ^ APART, number);
    let (a_rate, edition) = (draw.percent(40), draw.pick(&[None, None, Some(2)]));
    let (min, max) = draw.pick(&[(-10., 10.), (-10., 10.), (-1e-38, 1e-38), (-0., 5.)]);
    let calls = vec![Call::Make { min, default: 0., max, a_rate, edition }];
    let period = draw.pick(&[1., 1., 0.5, 1. / 48000.]);
    let mut fade = Fade { draw, calls, now: 0., period, count: 1 };
    for i in 0..3 + fade.draw.below(3) {
        fade.round(edition.is_some(), i % 2 == 1);
    }
    Session::new(&format!("{number} fading"), fade.calls)
}

impl Fade {
    /// What stands before the target, the target, now and then what ends it, the block.
    /// Every second round has a target, mostly.
    fn round(&mut self, long: bool, targets: bool) {
        let counts: &[usize] = if long { &[3, 127, 129, 200, 1024] } else { &[1, 2, 5, 9, 128] };
        self.count = self.draw.pick(counts);
        for _ in 0..self.draw.below(if targets { 2 } else { 4 }) {
            let (value, time) = (self.small(), self.time());
            let length = self.time() - self.now + self.period;
            let call = match self.draw.below(8) {
                0..4 => Call::Step(value, time),
                4 => Call::Linear(value, time),
                5 => Call::Exponential(value, time),
                6 => Call::Curve(time, length, vec![value, self.small(), self.small()]),
                _ => Call::Set(value),
            };
            self.calls.push(call);
        }
        if self.draw.percent(if targets { 85 } else { 15 }) {
            let (value, time) = (self.draw.pick(&[0., 0., -0., 1e-40]), self.time());
            let constant = self.draw.pick(&[0.01, 1., 3., 1000.]) * self.period;
            self.calls.push(Call::Target(value, time, constant));
        }
        if self.draw.percent(25) {
            let (value, time) = (self.small(), self.time());
            let call = match self.draw.below(3) {
                0 => Call::Step(value, time),
                1 => Call::Linear(value, time),
                _ => Call::Hold(time),
            };
            self.calls.push(call);
        }
        self.block();
    }

    fn block(&mut self) {
        let (time, period, count) = (self.now, self.period, self.count as u64);
        let plain = self.draw.percent(80);
        let with = if self.draw.percent(20) { self.count } else { 0 };
        let input = (0..with).map(|_| self.draw.pick(&[0., 0., -0., 1e-40, 1.])).collect();
        self.calls.push(Call::Block(Block { plain, time, period, count, out: self.count, input }));
        self.calls.push(Call::State);
        self.now += self.count as f64 * self.period;
    }

    /// Subnormal, or near it.
    fn small(&mut self) -> f32 {
        self.draw.pick(&[1e-40, -1e-40, 1e-45, -1e-39, 1.1754942e-38, 2e-39, f32::MIN_POSITIVE, 1.])
    }

    /// In the coming block, at its end or a little behind it.
    fn time(&mut self) -> f64 {
        let count = self.count as f64;
        let some = self.draw.fraction() * count * 1.2;
        let place = self.draw.pick(&[0., some, some, some.floor(), count]);
        place.mul_add(self.period, self.now)
    }
}
