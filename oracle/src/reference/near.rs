//! How near the two sides must be at one number, known from the calls alone:
//! every value that a walk carries says where it came from.

/// What is asked of the two sides at one number.
#[derive(Clone, Copy, Debug, Default, PartialEq)]
pub enum Near {
    /// The same bits.
    #[default]
    Same,
    /// A target's sample: at most this far apart (01's measured limit).
    Target(f64),
    /// An exponential's sample: likewise.
    Exponential(f64),
    /// No limit here, under this name of docs/DIFFERENCES.md.
    Open(&'static str),
}

/// A number, and how near the Rust's must be to it.
#[derive(Clone, Copy, Debug)]
pub struct Value {
    pub value: f32,
    pub near: Near,
}

impl Value {
    pub fn same(value: f32) -> Self {
        Self { value, near: Near::Same }
    }

    pub fn is_same(&self) -> bool {
        self.near == Near::Same
    }
}

fn two_to(e: i32) -> f64 {
    f64::powi(2., e)
}

/// 01: within 2^-20 × (|start| + |target|) + 2^-148, where start - target is finite.
pub fn target_near(start: f32, target: f32) -> Near {
    if !(start - target).is_finite() {
        return Near::Open("target-range");
    }
    let sum = f64::from(start.abs()) + f64::from(target.abs());
    Near::Target(two_to(-20) * sum + two_to(-148))
}

/// 01: within a relative 2^-18, for normal samples, ratios 2^-20 to 2^20 and
/// phases 0 to 1. A place that a ramp fills can lie half a sample outside of
/// it; for ramps of a sample and more the limit is asked there too. Divided
/// by 1 + 2^-18, so that it holds relative to either of the two numbers.
pub fn exponential_near(ratio: f32, phase: f64, sample: f32) -> Near {
    let ratios = two_to(-20)..=two_to(20);
    let measured = ratios.contains(&f64::from(ratio)) && (-0.5..=1.5).contains(&phase);
    if !(measured && sample.is_normal()) {
        return Near::Open("exponential-range");
    }
    Near::Exponential(two_to(-18) * f64::from(sample.abs()) / (1. + two_to(-18)))
}
