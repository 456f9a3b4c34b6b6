//! Sessions with cards (02, C-11): a schedule by calls is saved, files are loaded, sound
//! and damaged ones, and what waits then is printed, saved again, added to and played. The
//! Rust has none of it.

use crate::draw::Draw;
use crate::family::seeded;
use crate::files::{
    crowded, damaged, full, loading, long, making, run, scheduling, sound, unsound,
};
use crate::session::Session;
use reference::param::Reference;
use reference::queue::Kind;
use reference::session::{Block, Call};

/// Draws of their own.
const APART: u64 = 11 << 32;

struct Cards {
    draw: Draw,
    calls: Vec<Call>,
    reference: Reference,
    now: f64,
}

/// The session of this number.
pub fn cards(seed: u64, number: usize) -> Session {
    let draw = seeded(seed ^ APART, number);
    let (calls, reference) = (Vec::new(), Reference::empty());
    let mut cards = Cards { draw, calls, reference, now: 0. };
    let make = making(&mut cards.draw);
    cards.put(make);
    cards.schedule(8);
    cards.put(Call::Save);
    for _ in 0..=cards.draw.below(4) {
        cards.load();
        if cards.draw.percent(40) {
            cards.schedule(3);
            cards.put(Call::Save);
        }
        if cards.draw.percent(40) {
            cards.block();
            cards.put(Call::State);
        }
    }
    Session::new(&format!("{number} cards"), cards.calls)
}

impl Cards {
    /// Plays the call on the reference too.
    fn put(&mut self, call: Call) -> String {
        let answer = self.reference.answer(&call);
        self.calls.push(call);
        answer
    }

    /// Up to so many calls, most of which schedule.
    fn schedule(&mut self, most: usize) {
        for _ in 0..self.draw.below(most + 1) {
            let time = self.draw.below(40) as f64 / 4.;
            let call = match self.draw.below(40) {
                0 => Call::Cancel(time),
                1..4 => Call::Hold(time),
                4 => Call::Lend(self.draw.pick(&[0, 4095, 4096, 8192])),
                5..8 => self.poke(),
                8 => return self.block(),
                _ => scheduling(&mut self.draw),
            };
            self.put(call);
        }
    }

    /// Into the numbers of the waiting curves, if there are any, mostly; often none that is
    /// finite.
    fn poke(&mut self) -> Call {
        let length = |kind: &Kind| match kind {
            Kind::Curve { numbers, .. } => numbers.len(),
            _ => 0,
        };
        let waiting: usize = self.reference.waiting().iter().map(|e| length(&e.kind)).sum();
        let anywhere = self.draw.pick(&[0, waiting, 4095, 4096, 8191]);
        let within = if waiting > 0 { self.draw.below(waiting) } else { anywhere };
        let place = if self.draw.percent(70) { within } else { anywhere };
        Call::Poke(place, self.draw.pick(&[f32::NAN, f32::INFINITY, 1., -0.]))
    }

    /// A file, the parameter behind it, and mostly what is saved of that.
    fn load(&mut self) {
        let file = self.file();
        let load = loading(&mut self.draw, file, 5);
        if self.put(Call::Load(load)) == "ok" {
            self.now = 0.;
        }
        self.put(Call::State);
        if self.draw.percent(80) {
            self.put(Call::Save);
        }
    }

    fn file(&mut self) -> Vec<u8> {
        let saved = self.reference.saved().ok().filter(|_| self.draw.percent(30));
        let draw = &mut self.draw;
        match draw.below(100) {
            0 => full(draw),
            1..4 => long(draw),
            4..7 => crowded(draw),
            7..30 => saved.unwrap_or_else(|| sound(draw, 8)),
            30..65 => {
                let file = saved.unwrap_or_else(|| sound(draw, 5));
                damaged(draw, &file)
            }
            65..92 => unsound(draw),
            _ => run(draw),
        }
    }

    /// A short block by either renderer; now and then one that goes back.
    fn block(&mut self) {
        let count = 1 + self.draw.below(6);
        let (plain, period) = (self.draw.percent(50), self.draw.pick(&[0.25, 0.5, 1.]));
        let time = if self.draw.percent(10) { 0. } else { self.now };
        let (out, input) = (count, Vec::new());
        let block = Block { plain, time, period, count: count as u64, out, input };
        if self.put(Call::Block(block)).starts_with("block") {
            self.now = (count as f64).mul_add(period, time);
        }
    }
}
