//! The sessions whose cost is counted: those that `compare` draws, with calls put
//! between, and some of exponentials that all turn; likewise of both editions.

use crate::costed::Costed;
use comparing::draw::Draw;
use comparing::family::{editions, random, seeded};
use comparing::session::Session;
use reference::session::{Block, Call};

/// The session of this number. One in ten is of turning exponentials alone.
pub fn drawn(seed: u64, number: usize) -> Costed {
    let mut draw = seeded(!seed, number);
    if number % 10 == 9 {
        return Costed::new(&format!("{number} turning"), turning(&mut draw, None));
    }
    with_more(&mut draw, random(seed, number, None))
}

/// The same of both editions.
pub fn of_editions(seed: u64, number: usize) -> Costed {
    let mut draw = seeded(!seed, number);
    if number % 10 == 9 {
        return Costed::new(&format!("{number} turning, 2"), turning(&mut draw, Some(2)));
    }
    with_more(&mut draw, editions(seed, number))
}

/// Before two blocks in five, up to four calls more.
fn with_more(draw: &mut Draw, session: Session) -> Costed {
    let Session { title, calls, editions, .. } = session;
    let mut all = Vec::new();
    for (call, edition) in calls.into_iter().zip(editions) {
        if let Call::Block(block) = &call {
            let more = if draw.percent(40) { 1 + draw.below(4) } else { 0 };
            let places = block.count.min(edition.ceiling() as u64) as f64;
            (0..more).for_each(|_| all.extend(one_more(draw, block, places)));
        }
        all.push(call);
    }
    Costed::new(&title, all)
}

/// Something that costs: an exponential, mostly one that turns, a curve, a hold, a
/// cancel, or what is refused.
fn one_more(draw: &mut Draw, block: &Block, places: f64) -> Vec<Call> {
    let near = |draw: &mut Draw| time(draw, block, places);
    let (value, time, end) = (value(draw), near(draw), near(draw));
    let (from, to) = (time.min(end), time.max(end));
    match draw.below(12) {
        0..=1 => vec![Call::Step(0., from), Call::Exponential(value, to)],
        2..=3 => vec![Call::Step(-value, from), Call::Exponential(value, to)],
        4 => vec![Call::Exponential(value, to), Call::Hold(from)],
        5 => vec![Call::Exponential(value, to)],
        6 => vec![Call::Curve(from, to - from, vec![value, 0., 1.])],
        7 => vec![Call::Curve(from, to - from, vec![value, 1.]), Call::Hold(time)],
        8 => vec![Call::Target(value, from, block.period), Call::Linear(1., to)],
        9 => vec![Call::Hold(time)],
        10 => vec![Call::Cancel(time)],
        _ => vec![refused(draw, block)],
    }
}

/// So large or small that a ratio of two may be infinite or 0, too; never 0 itself.
fn value(draw: &mut Draw) -> f32 {
    let size = draw.pick(&[1., 2., 5., 0.25, 3e38, 1e-38, 1e-45]);
    draw.pick(&[size, -size])
}

/// In the coming block of so many places, at its ends or a little behind it.
fn time(draw: &mut Draw, block: &Block, count: f64) -> f64 {
    let place = match draw.below(4) {
        0 => draw.pick(&[0., count, count - 0.5, count + 1.]),
        1 => (draw.fraction() * count).floor(),
        _ => draw.fraction() * count * 1.3,
    };
    place.mul_add(block.period, block.time)
}

/// Calls that are refused, most of them by their own numbers.
fn refused(draw: &mut Draw, block: &Block) -> Call {
    let time = block.time;
    let with = |change: &dyn Fn(&mut Block)| {
        let mut changed = block.clone();
        change(&mut changed);
        Call::Block(changed)
    };
    match draw.below(10) {
        0 => with(&|b| b.count = 0),
        1 => with(&|b| b.out = 0),
        2 => with(&|b| b.period = 0.),
        3 => with(&|b| b.time = -1.),
        4 => with(&|b| b.time /= 2.), // before the last block, if one was answered
        5 => Call::Exponential(0., time),
        6 => Call::Set(f32::NAN),
        7 => Call::Cancel(f64::NAN),
        8 => Call::Hold(-1.),
        _ => Call::Curve(time, 1., vec![1.]),
    }
}

/// Exponentials from a value that makes each a step, in rising order, and blocks, of
/// which the last mostly reaches behind them: then the bound is reached. Under the
/// second edition also so many that one block may take all the heads that it can.
fn turning(draw: &mut Draw, edition: Option<u8>) -> Vec<Call> {
    let default = draw.pick(&[0., 0., -0., 1., -5., 3e38, -1e-45]);
    let (min, max, a_rate) = (f32::MIN, f32::MAX, draw.percent(50));
    let mut calls = vec![Call::Make { min, default, max, a_rate, edition }];
    let (mut last, mut time) = (default, 0.);
    let long = edition.is_some();
    let events = if long && draw.percent(50) { 64 } else { 1 + draw.below(6) };
    for _ in 0..events {
        time += draw.pick(&[0., 0.5, 1., 3., 40.]);
        last = turning_from(draw, last);
        calls.push(Call::Exponential(last, time));
    }
    let (mut now, blocks) = (0., 1 + draw.below(6));
    for _ in 0..blocks {
        let count = draw.pick(if long { &[7, 129, 512, 1024] } else { &[1, 7, 64, 128] });
        let (plain, out, input) = (false, count as usize, Vec::new());
        calls.push(Call::Block(Block { plain, time: now, period: 1., count, out, input }));
        now += count as f64;
    }
    calls
}

/// The end of an exponential whose ratio is not finite and above 0.
fn turning_from(draw: &mut Draw, start: f32) -> f32 {
    loop {
        let end = value(draw);
        let ratio = end / start;
        if !(ratio.is_finite() && ratio > 0.) {
            return end;
        }
    }
}
