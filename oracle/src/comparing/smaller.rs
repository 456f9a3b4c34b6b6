//! Sessions that are a little smaller than one: what shrinking tries.

use crate::files::fields;
use reference::session::{Block, Call, Load};

/// Smaller sessions: with calls left out, many first; then with one call
/// simpler. The first call, the `make`, stays: it parts a session from others.
pub fn smaller(calls: &[Call]) -> Vec<Vec<Call>> {
    let mut all = Vec::new();
    let mut size = calls.len() / 2;
    while size > 0 {
        for from in (1..calls.len() + 1 - size).step_by(size) {
            all.push([&calls[..from], &calls[from + size..]].concat());
        }
        size /= 2;
    }
    for (i, call) in calls.iter().enumerate() {
        for simple in simpler(call) {
            let mut changed = calls.to_vec();
            changed[i] = simple;
            all.push(changed);
        }
    }
    all
}

/// One number simpler in the call: every change lowers `weight` or a length.
fn simpler(call: &Call) -> Vec<Call> {
    let values = |v: &f32, put: &dyn Fn(f32) -> Call| simpler32(*v).into_iter().map(put).collect();
    let times = |t: &f64, put: &dyn Fn(f64) -> Call| simpler64(*t).into_iter().map(put).collect();
    let lists: Vec<Vec<Call>> = match call.clone() {
        Call::Make { min, default, max, a_rate, edition } => vec![
            edition.iter().map(|_| made(&[min, default, max], a_rate, None)).collect(),
            values(&min, &|min| made(&[min, default, max], a_rate, edition)),
            values(&default, &|default| made(&[min, default, max], a_rate, edition)),
            values(&max, &|max| made(&[min, default, max], a_rate, edition)),
        ],
        Call::Set(v) => vec![values(&v, &Call::Set)],
        Call::Step(v, t) => {
            vec![values(&v, &|v| Call::Step(v, t)), times(&t, &|t| Call::Step(v, t))]
        }
        Call::Linear(v, t) => {
            vec![values(&v, &|v| Call::Linear(v, t)), times(&t, &|t| Call::Linear(v, t))]
        }
        Call::Exponential(v, t) => {
            vec![values(&v, &|v| Call::Exponential(v, t)), times(&t, &|t| Call::Exponential(v, t))]
        }
        Call::Target(v, t, c) => vec![
            values(&v, &|v| Call::Target(v, t, c)),
            times(&t, &|t| Call::Target(v, t, c)),
            times(&c, &|c| Call::Target(v, t, c)),
        ],
        Call::Cancel(t) => vec![times(&t, &Call::Cancel)],
        Call::Hold(t) => vec![times(&t, &Call::Hold)],
        Call::Curve(t, d, numbers) => vec![simpler_curve(t, d, &numbers)],
        Call::Block(block) => vec![simpler_block(&block)],
        Call::Load(load) => vec![simpler_load(&load)],
        Call::Lend(_) | Call::Poke(..) | Call::State | Call::Save => Vec::new(),
    };
    lists.concat()
}

fn made(&[min, default, max]: &[f32; 3], a_rate: bool, edition: Option<u8>) -> Call {
    Call::Make { min, default, max, a_rate, edition }
}

/// With a field or a byte left out, in one part, without its edition.
fn simpler_load(load: &Load) -> Vec<Call> {
    let (fields, file) = (fields(&load.file), &load.file);
    let without = |i: usize| [&fields[..i], &fields[i + 1..]].concat().concat();
    let mut files: Vec<Vec<u8>> = (0..fields.len()).map(without).collect();
    files.extend(file.len().checked_sub(1).map(|n| file[..n].to_vec()));
    let with = |file| Call::Load(Load { file, ..load.clone() });
    let mut all: Vec<Call> = files.into_iter().map(with).collect();
    if load.part < 65536 {
        all.push(Call::Load(Load { part: 65536, ..load.clone() }));
    }
    if load.edition.is_some() {
        all.push(Call::Load(Load { edition: None, ..load.clone() }));
    }
    all
}

fn simpler_curve(t: f64, d: f64, numbers: &[f32]) -> Vec<Call> {
    let mut all = Vec::new();
    if numbers.len() > 2 {
        all.push(Call::Curve(t, d, numbers[..numbers.len() / 2 + 1].to_vec()));
        all.push(Call::Curve(t, d, numbers[1..].to_vec()));
    }
    all.extend(simpler64(t).into_iter().map(|t| Call::Curve(t, d, numbers.to_vec())));
    all.extend(simpler64(d).into_iter().map(|d| Call::Curve(t, d, numbers.to_vec())));
    for (i, v) in numbers.iter().enumerate().take(16) {
        for v in simpler32(*v) {
            let mut changed = numbers.to_vec();
            changed[i] = v;
            all.push(Call::Curve(t, d, changed));
        }
    }
    all
}

fn simpler_block(block: &Block) -> Vec<Call> {
    let mut all = Vec::new();
    let mut with = |change: &dyn Fn(&mut Block)| {
        let mut changed = block.clone();
        change(&mut changed);
        all.push(Call::Block(changed));
    };
    if block.plain {
        with(&|b| b.plain = false);
    }
    if !block.input.is_empty() {
        with(&|b| b.input.clear());
    }
    if block.out as u64 > block.count {
        with(&|b| b.out = b.count as usize);
    }
    for count in [block.count / 2, block.count.saturating_sub(1)] {
        if 0 < count && count < block.count {
            with(&|b| {
                b.count = count;
                b.out = count as usize;
                b.input.truncate(count as usize);
            });
        }
    }
    simpler64(block.time).into_iter().for_each(|time| with(&|b| b.time = time));
    simpler64(block.period).into_iter().for_each(|period| with(&|b| b.period = period));
    all
}

/// The more digits set, and the further from 0 and 1, the heavier.
fn weight(v: f64) -> u64 {
    let easy = if v == 0. || v == 1. { 0 } else { 8 };
    let whole = if v.fract() == 0. { 0 } else { 8 };
    easy + whole + 4 * u64::from((v.to_bits() << 12).count_ones()) + v.abs().min(1e6) as u64 / 4
}

fn simpler64(v: f64) -> Vec<f64> {
    let coarse = f64::from_bits(v.to_bits() & !0u64 << 44);
    let ways = [0., 1., 2., 4., v.floor(), v.ceil(), (v * 2.).round() / 2., coarse];
    ways.into_iter().filter(|w| weight(*w) < weight(v)).collect()
}

fn simpler32(v: f32) -> Vec<f32> {
    simpler64(f64::from(v)).into_iter().map(|w| w as f32).collect()
}
