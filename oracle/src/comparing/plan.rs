//! One session: drawn call by call, with the reference played along. Where a
//! call would claim what the family does not take, it is drawn again or left out.

use crate::draw::Draw;
use reference::claims::{Claims, Reach};
use reference::edition::Edition;
use reference::param::Reference;
use reference::session::{Block, Call};

/// What a session may claim.
#[derive(Clone, Copy, PartialEq)]
pub enum Family {
    /// Nothing: all of it is equal bit for bit.
    Clean,
    /// No difference that ends the comparison.
    Plain,
    /// Anything.
    Wild,
}

impl Family {
    pub fn name(self) -> &'static str {
        match self {
            Family::Clean => "clean",
            Family::Plain => "plain",
            Family::Wild => "wild",
        }
    }

    pub fn named(word: &str) -> Option<Self> {
        [Self::Clean, Self::Plain, Self::Wild].into_iter().find(|f| f.name() == word)
    }

    fn takes(self, claims: &Claims) -> bool {
        match self {
            Family::Clean => claims.list.is_empty(),
            Family::Plain => claims.list.iter().all(|c| c.reach != Reach::Ends),
            Family::Wild => true,
        }
    }

    /// Targets and exponentials are never clean, but for those that become steps.
    pub fn themes(self) -> &'static [(Theme, &'static str)] {
        if self == Family::Clean {
            &CLEAN_THEMES
        } else {
            &THEMES
        }
    }
}

#[derive(Clone, Copy, PartialEq)]
pub enum Theme {
    Step,
    Linear,
    Exponential,
    Target,
    Curve,
    Mixed,
}

pub const THEMES: [(Theme, &str); 6] = [
    (Theme::Step, "step"),
    (Theme::Linear, "linear"),
    (Theme::Exponential, "exponential"),
    (Theme::Target, "target"),
    (Theme::Curve, "curve"),
    (Theme::Mixed, "mixed"),
];

const CLEAN_THEMES: [(Theme, &str); 4] = [THEMES[0], THEMES[1], THEMES[4], THEMES[5]];

/// What is asked of a session; `count` is that of its first block, `edition` the fifth
/// word of its `make`.
#[derive(Clone, Copy)]
pub struct Wish {
    pub family: Family,
    pub theme: Theme,
    pub a_rate: bool,
    pub edition: Option<u8>,
    pub count: Option<usize>,
    /// Blocks with an input, in a hundred.
    pub inputs: usize,
    /// At least so many blocks, and up to two more.
    pub blocks: usize,
}

struct Plan<'a> {
    draw: &'a mut Draw,
    wish: Wish,
    reference: Reference,
    calls: Vec<Call>,
    bounds: (f32, f32),
    /// Times that events were given, and where curves end.
    seen: Vec<f64>,
    /// Time and period of the next block, and its count as far as known.
    now: f64,
    period: f64,
    count: usize,
}

pub fn calls(draw: &mut Draw, wish: Wish) -> Vec<Call> {
    let mut plan = Plan::start(draw, wish);
    let blocks = wish.blocks + plan.draw.below(3);
    for i in 0..blocks {
        plan.choose_count(i == 0);
        plan.events(if i == 0 { 5 } else { 3 } * if plan.is_long() { 2 } else { 1 });
        if plan.draw.percent(30) {
            plan.take(Call::State);
        }
        if !plan.block() {
            break;
        }
        if plan.draw.percent(70) {
            plan.take(Call::State);
        }
    }
    if plan.calls.last() != Some(&Call::State) {
        plan.take(Call::State);
    }
    plan.calls
}

impl<'a> Plan<'a> {
    fn start(draw: &'a mut Draw, wish: Wish) -> Self {
        let period = draw.pick(&[1., 1., 0.5, 1. / 48000., 1. / 44100., 0.1, 1. / 3., 0.001]);
        let now = draw.pick(&[0., 0., 0., 0., 1., 1000., 0.3, 12345.678]) * period;
        let (bounds, count) = ((-10., 10.), 1);
        let (reference, calls, seen) = (Reference::empty(), Vec::new(), Vec::new());
        let mut plan = Plan { draw, wish, reference, calls, bounds, seen, now, period, count };
        if plan.wild() && plan.draw.percent(10) {
            plan.period = plan.draw.pick(&[1e-300, 5e-324, 1e300, 1e307, 4., 1e-9]);
            plan.now = plan.draw.pick(&[0., 9007199254740992., 1e300, 1.7e308, 4503599627370495.5]);
        }
        plan.make();
        if plan.is_long() && plan.draw.percent(15) {
            // So far from 0 that each sum of a time and the period is rounded, and seen.
            plan.now = plan.draw.pick(&[3e9, 1e12, 1099511627776.]);
        }
        if !plan.wild() || plan.draw.percent(70) {
            let first = Call::Step(plan.value(), 0.);
            plan.take(first);
        }
        plan
    }

    fn wild(&self) -> bool {
        self.wish.family == Family::Wild
    }

    /// Under the second edition.
    fn is_long(&self) -> bool {
        self.reference.edition() == Edition::Second
    }

    fn make(&mut self) {
        let usual = [(-10., 0., 10.), (-1000., 0., 1000.), (-1., 0.5, 3.), (0., 0.25, 1.)];
        let wide = [(-3.4e38, 1., 3.4e38), (-1e-38, 0., 1e-38), (2., 2., 2.), (-0., 0., 5.)];
        let wrong = [(1., 0., 2.), (0., f32::NAN, 1.), (-1., 2., 1.), (f32::NEG_INFINITY, 0., 1.)];
        let kind = self.draw.below(100);
        let (min, default, max) = match kind {
            0..=1 if self.wild() => self.draw.pick(&wrong),
            2..=14 => self.draw.pick(&wide),
            60.. if self.wish.edition.is_some_and(|n| n != 1 && n != 2) => self.draw.pick(&wrong),
            85.. if self.wish.edition.is_some() => self.draw.pick(&wrong),
            _ => self.draw.pick(&usual),
        };
        self.bounds = (min, max);
        let Wish { a_rate, edition, .. } = self.wish;
        self.take(Call::Make { min, default, max, a_rate, edition });
    }

    /// Plays the call on the reference; false where the family does not take it.
    /// What a side refuses by curve-inside is mostly left out: too many of the events
    /// near a curve would be refused, and too many comparisons end there.
    fn take(&mut self, call: Call) -> bool {
        let mut after = self.reference.clone();
        after.answer(&call);
        let inside = after.claims.has("curve-inside");
        let taken = self.wish.family.takes(&after.claims) && !(inside && self.draw.percent(80));
        if taken {
            self.reference = after;
            self.calls.push(call);
        }
        taken
    }

    /// The same in a wild session, whatever it claims.
    fn put(&mut self, call: Call) {
        self.reference.answer(&call);
        self.calls.push(call);
    }

    /// The list's count for the first block and one in ten of the others, which
    /// are short (the list is kept small); without one, often those of the list.
    fn choose_count(&mut self, first: bool) {
        if self.is_long() {
            return self.choose_long();
        }
        let small = 1 + self.draw.below(8);
        let any = 1 + self.draw.below(128);
        let often = self.draw.pick(&[1, 63, 64, 127, 128]);
        self.count = match (self.wish.count, self.draw.below(20)) {
            (Some(count), ..2) => count,
            (Some(count), _) if first => count,
            (Some(_), _) | (None, ..5) => small,
            (None, 5..10) => any,
            (None, _) => often,
        };
    }

    /// Under the second edition: mostly more than 128, and often those at an end.
    fn choose_long(&mut self) {
        let some = self.draw.below(1024 - 128);
        self.count = match self.draw.below(10) {
            0..2 => 1 + self.draw.below(128),
            2..6 => 129 + self.draw.below(some + 1),
            _ => self.draw.pick(&[127, 128, 129, 256, 512, 1023, 1024, 1024, 1024, 1024]),
        };
    }

    fn events(&mut self, most: usize) {
        if self.wild() && self.draw.percent(4) {
            return self.last_moment();
        }
        for _ in 0..=self.draw.below(most) {
            let call = self.event();
            self.lead_in(&call);
            self.remember(&call);
            self.take(call);
        }
        if self.wild() && self.draw.percent(if self.is_long() { 5 } else { 1 }) {
            self.crowd();
        }
        if self.is_long() && self.draw.percent(8) {
            self.fade();
        }
        if self.wild() && self.draw.percent(6) {
            self.holds();
        }
        if self.wild() && self.draw.percent(5) {
            self.in_curve();
        }
        if self.wild() && self.draw.percent(8) {
            self.cancelled_curve();
        }
    }

    /// Often a step where a target starts, or just before a curve (at its start it
    /// would be inside): then that one waits for its start as the second, and a
    /// target does not arrive at an empty queue.
    fn lead_in(&mut self, call: &Call) {
        let at = match call {
            Call::Target(_, t, _) => *t,
            Call::Curve(t, _, _) => t.next_down(),
            _ => return,
        };
        if at >= 0. && at.is_finite() && self.draw.percent(60) {
            let step = Call::Step(self.value(), at);
            self.take(step);
        }
    }

    /// One curve that ends a moment after the block does, by rounding or not.
    fn last_moment(&mut self) {
        let end = (self.count as f64).mul_add(self.period, self.now);
        let start = self.draw.fraction().mul_add(end - self.now, self.now);
        let numbers = (0..3 + self.draw.below(10)).map(|_| self.value()).collect();
        let length = self.draw.pick(&[end - start, (end - start).next_up()]);
        self.take(Call::Curve(start, length, numbers));
    }

    /// Subnormal places from the block's start on, which become 0 at its end.
    fn fade(&mut self) {
        let (some, all) = (self.draw.fraction(), self.count as f64 * self.period);
        let calls = [
            Call::Cancel(0.),
            Call::Step(self.draw.pick(&[1e-40, -1e-39]), self.now),
            Call::Target(self.draw.pick(&[0., -0.]), some.mul_add(all, self.now), all),
        ];
        calls.into_iter().for_each(|call| self.put(call));
    }

    /// Holds with events between them.
    fn holds(&mut self) {
        for _ in 0..3 {
            let call = self.themed();
            self.take(call);
            let call = Call::Hold(self.time());
            self.take(call);
        }
    }

    /// A curve, mostly a ramp at its end or behind it, then holds and events within.
    fn in_curve(&mut self) {
        let (start, length) = (self.time(), self.length().max(self.period));
        let end = start + length;
        let numbers = (0..2 + self.draw.below(4)).map(|_| self.value()).collect();
        self.take(Call::Curve(start, length, numbers));
        let later = end + self.length();
        if self.draw.percent(80) {
            let ramp = self.draw.pick(&[Call::Linear, Call::Exponential]);
            let call = ramp(self.value(), self.draw.pick(&[end, later]));
            self.take(call);
        }
        for _ in 0..=self.draw.below(3) {
            let within = self.draw.fraction().mul_add(length, start);
            let time = self.draw.pick(&[within, within, start, end, end.next_down()]);
            let (value, numbers) = (self.value(), vec![self.value(), self.value()]);
            let call = match self.draw.below(6) {
                0 => Call::Step(value, time),
                1 => Call::Target(value, time, length),
                2 => Call::Curve(time, length, numbers),
                _ => Call::Hold(time),
            };
            self.put(call);
        }
    }

    /// A curve that begins at the last block's end, a moment beside it, before or after;
    /// now and then held, or with a set ahead of it; then it is cancelled. With a block
    /// between, or without.
    fn cancelled_curve(&mut self) {
        if self.draw.percent(70) {
            self.put(Call::Cancel(0.)); // so that the curve is taken, and the head
        }
        let plays = self.draw.percent(60);
        let ahead = if plays { self.count as f64 } else { 0. };
        let edge = ahead.mul_add(self.period, self.now);
        let some = self.draw.fraction() * self.count as f64 * self.period;
        let sides = [edge, edge.next_up(), edge.next_down(), edge - some, edge + some];
        let start = self.draw.pick(&sides).max(0.);
        let length = self.length() + self.period;
        let numbers = (0..2 + self.draw.below(4)).map(|_| self.value()).collect();
        let curve = Call::Curve(start, length, numbers);
        self.lead_in(&curve);
        self.put(curve);
        if plays {
            self.block_and_back();
        }
        let within = self.draw.fraction().mul_add(length, start);
        let held = self.draw.percent(25);
        if held {
            self.put(Call::Hold(within));
        }
        if self.draw.percent(10) {
            let set = Call::Set(self.value());
            self.put(set);
        }
        self.cancel_around(start, if held { within } else { start + length });
        self.put(Call::State);
    }

    /// A block, and now and then a short one from the same time on, which ends earlier.
    fn block_and_back(&mut self) {
        let (time, period) = (self.now, self.period);
        self.block();
        if self.draw.percent(20) {
            let (plain, input) = (false, Vec::new());
            self.put(Call::Block(Block { plain, time, period, count: 1, out: 1, input }));
        }
    }

    /// A cancel at or beside the ends of a curve, or a hold before it.
    fn cancel_around(&mut self, start: f64, end: f64) {
        let before = self.draw.pick(&[0., start / 2., start.next_down().max(0.)]);
        let within = self.draw.fraction().mul_add(end - start, start);
        let ends = [start, start.next_up(), end, end.next_up(), end.next_down()];
        let time = self.draw.pick(&ends);
        let call = match self.draw.below(8) {
            0..=1 => Call::Hold(before),
            2 => Call::Cancel(before),
            3..=4 => Call::Cancel(within),
            _ => Call::Cancel(time),
        };
        self.put(call);
    }

    fn remember(&mut self, call: &Call) {
        match call {
            Call::Step(_, t) | Call::Linear(_, t) | Call::Exponential(_, t) => self.seen.push(*t),
            Call::Target(_, t, _) | Call::Hold(t) => self.seen.push(*t),
            Call::Curve(t, d, _) => self.seen.extend([*t, t + d]),
            _ => (),
        }
    }

    /// More events or curve numbers than 01 lets wait, and then events inside a curve:
    /// 11 comes before 7 and 8.
    fn crowd(&mut self) {
        let (start, length, many) = (self.time(), self.period, self.draw.percent(50));
        self.take(Call::Curve(start, length, vec![1.; if many { 2 } else { 4090 }]));
        for _ in 0..if many { 66 } else { 0 } {
            let call = Call::Step(self.value(), self.time());
            self.take(call);
        }
        let call = Call::Curve(self.time(), length, vec![2.; 7]);
        self.take(call);
        let value = self.value();
        self.put(Call::Step(value, start));
        self.put(Call::Curve(start, length, vec![3.; 7]));
    }

    fn event(&mut self) -> Call {
        match self.draw.below(100) {
            0..=5 => self.refused(),
            6..=11 => Call::Cancel(self.time()),
            12..=19 => Call::Hold(self.time()),
            20..=21 if self.wild() => Call::Set(self.value()),
            22..=23 if self.wild() => self.odd(),
            24..=26 if self.wild() => Call::Hold(self.time()),
            27..=44 => Call::Step(self.value(), self.time()),
            _ => self.themed(),
        }
    }

    fn themed(&mut self) -> Call {
        let mut theme = self.wish.theme;
        if theme == Theme::Mixed {
            theme = THEMES[self.draw.below(5)].0;
        }
        let (value, time) = (self.value(), self.time());
        match theme {
            Theme::Step | Theme::Mixed => Call::Step(value, time),
            Theme::Linear => Call::Linear(value, time),
            Theme::Exponential => Call::Exponential(value, time),
            Theme::Target => Call::Target(value, time, self.length()),
            Theme::Curve => {
                let n = 2 + self.draw.below(self.wish.count.map_or(9, |_| 4));
                let numbers = (0..n).map(|_| self.value()).collect();
                Call::Curve(time, self.length_from(time), numbers)
            }
        }
    }

    /// A call that every side refuses.
    fn refused(&mut self) -> Call {
        let (v, t) = (self.value(), self.time());
        match self.draw.below(10) {
            0 => Call::Step(f32::NAN, t),
            1 => Call::Linear(v, -1.),
            2 => Call::Exponential(self.draw.pick(&[0., -0.]), t),
            3 => Call::Target(v, t, -1.),
            4 => Call::Target(v, f64::INFINITY, 1.),
            5 => Call::Curve(t, self.draw.pick(&[0., -0., -1.]), vec![v, v]),
            6 => Call::Curve(t, 1., vec![v]),
            7 => Call::Cancel(f64::NAN),
            8 => Call::Hold(-1e-300),
            _ => Call::Set(f32::INFINITY),
        }
    }

    /// Wild sessions: -0 times, the store, curve numbers that are none.
    fn odd(&mut self) -> Call {
        let (v, t) = (self.value(), self.time());
        match self.draw.below(8) {
            0 => Call::Step(v, -0.),
            1 => Call::Hold(-0.),
            2 => Call::Lend(self.draw.pick(&[4095, 4096, 0])),
            3 => Call::Poke(self.draw.below(20), v),
            4 => Call::Curve(t, self.period, vec![v, f32::NAN, v]),
            5 => Call::Linear(v, f64::MAX),
            6 => Call::Target(v, t, self.draw.pick(&[0., -0., 5e-324, 1e308])),
            _ => Call::Curve(t, self.draw.pick(&[1e308, 5e-324]), vec![v, -v, v]),
        }
    }

    fn value(&mut self) -> f32 {
        let (min, max) = self.bounds;
        let inside = min as f64 + self.draw.fraction() * (max as f64 - min as f64);
        match self.draw.below(20) {
            0 => self.draw.pick(&[0., -0., 1e-40, -1e-40, 1e-10, 1e-30]),
            1 => self.draw.pick(&[3e38, -3e38, 1e30, f32::MIN_POSITIVE, 2e-38]),
            2 => self.draw.pick(&[min, max, 2. * max]),
            3..=9 => (self.draw.below(41) as f32 - 20.) / 4.,
            10 => f32::from_bits(self.draw.bits() as u32 & 0xbfff_ffff),
            _ => inside as f32,
        }
    }

    /// A time in or near the coming block: on and beside half samples and ends,
    /// now and then one that an event already has.
    fn time(&mut self) -> f64 {
        if !self.seen.is_empty() && self.draw.percent(10) {
            return self.draw.pick(&self.seen);
        }
        let reach = match (self.wild(), self.is_long()) {
            (true, false) => 3.,
            (false, false) => 1.6,
            (_, true) => 1.2,
        };
        let places = reach * self.count as f64;
        let place = match self.draw.below(10) {
            0..=2 => (self.draw.fraction() * places).floor(),
            3..=4 => (self.draw.fraction() * places).floor() + 0.5,
            5 => self.count as f64 - self.draw.pick(&[0., 0.5, 1., 0.25, -0.5]),
            6 if self.wild() => return self.draw.pick(&[0., self.now, 1e9 * self.period]),
            7 if self.is_long() => self.draw.pick(&[127., 127.5, 128., 128.5, 129., 1023.5]),
            _ => self.draw.fraction() * places,
        };
        let time = place.mul_add(self.period, self.now);
        match self.draw.below(12) {
            0 => time.next_up(),
            1 if time > 0. => time.next_down(),
            _ => time,
        }
    }

    /// A duration or a time constant.
    fn length(&mut self) -> f64 {
        let samples = match self.draw.below(6) {
            0 => 0.01 + self.draw.fraction(),
            1 => 1. + self.draw.below(8) as f64,
            2 => self.draw.fraction() * 4. * self.count as f64 + 0.1,
            3 if self.wild() => self.draw.pick(&[0., 1e-9, 1e9]),
            _ => self.draw.fraction() * self.count as f64 + 0.1,
        };
        samples * self.period
    }

    /// A duration: often one that ends where an event may be.
    fn length_from(&mut self, start: f64) -> f64 {
        let block_end = (self.count as f64).mul_add(self.period, self.now);
        let end = if self.draw.percent(20) { block_end } else { self.time() };
        if end <= start || self.draw.percent(50) {
            return self.length();
        }
        let length = end - start;
        if self.draw.percent(30) {
            length.next_up()
        } else {
            length
        }
    }

    fn input(&mut self) -> Vec<f32> {
        if !self.draw.percent(self.wish.inputs) {
            return Vec::new();
        }
        let odd = [0., -0., f32::NAN, f32::INFINITY, -1e30, 1e-40];
        (0..self.count)
            .map(|_| if self.draw.percent(10) { self.draw.pick(&odd) } else { self.value() })
            .collect()
    }

    /// One block; in a plain session with another count, or without the events
    /// behind it, where it would end the comparison. False if it still would.
    fn block(&mut self) -> bool {
        if self.wish.edition.is_some() && self.draw.percent(25) {
            self.at_ceiling();
        }
        for attempt in 0..12 {
            let input = self.input();
            let out = self.count + self.draw.below(2) * self.draw.below(4);
            let (time, period) = (self.now, self.period);
            let (plain, count) = (false, self.count as u64);
            let mut block = Block { plain, time, period, count, out, input };
            if self.wild() && self.draw.percent(2) {
                self.spoil(&mut block);
            }
            if self.take(Call::Block(block)) {
                self.pass();
                return true;
            }
            if self.wish.count.is_none() && attempt < 4 {
                self.count = 1 + self.draw.below(128);
            } else {
                let behind = self.count as f64 * (12 - attempt) as f64 / 12.;
                let call = Call::Cancel(behind.mul_add(self.period, self.now));
                self.take(call);
            }
        }
        false
    }

    /// A block with a ceiling for its count, or one more, mostly refused for that alone;
    /// now and then with an output or an input that is one short. Time does not pass.
    fn at_ceiling(&mut self) {
        let ceiling = self.reference.edition().ceiling();
        let count = self.draw.pick(&[ceiling, ceiling + 1, ceiling + 1, 129, 1024, 1025]);
        let out = self.draw.pick(&[count, count, count, count + 1, 4096, count - 1]);
        let length = self.draw.pick(&[0, 0, 0, 0, count, count - 1]);
        let (time, period, input) = (self.now, self.period, vec![self.value(); length]);
        let (plain, count) = (false, count as u64);
        self.put(Call::Block(Block { plain, time, period, count, out, input }));
    }

    /// To the next block, now and then with a gap.
    fn pass(&mut self) {
        self.now = (self.count as f64).mul_add(self.period, self.now).min(f64::MAX);
        if self.draw.percent(4) {
            self.now += self.draw.pick(&[1., 0.5, 1000.]) * self.period;
        }
    }

    fn spoil(&mut self, block: &mut Block) {
        match self.draw.below(7) {
            0 => block.count = self.draw.pick(&[0, 129, u64::MAX]),
            1 => block.out = 0,
            2 => block.input = vec![1.; self.count + 1],
            3 => block.time = self.draw.pick(&[f64::NAN, -1., -0., f64::INFINITY]),
            4 => block.period = self.draw.pick(&[0., -0., -1., f64::NAN, f64::INFINITY]),
            _ => block.time = self.now / 2.,
        }
    }
}
