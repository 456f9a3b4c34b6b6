//! The oracle: the given param.rs, unchanged, answering a session.
//!
//! This root holds what param.rs takes from the crate's lib.rs, copied from it,
//! and the modules that stand in for the rest of the crate. `param` is the
//! given file with one line behind it (see build.sh).
#![allow(dead_code)] // param.rs has more than a session calls

use std::sync::atomic::{AtomicU32, Ordering};

mod context;
mod node;
mod param;
mod render;
mod session;

pub(crate) const RENDER_QUANTUM_SIZE: usize = 128;

#[derive(Debug)]
pub(crate) struct AtomicF32 {
    bits: AtomicU32,
}

impl AtomicF32 {
    pub fn new(value: f32) -> Self {
        Self { bits: AtomicU32::new(value.to_bits()) }
    }

    pub fn load(&self, ordering: Ordering) -> f32 {
        f32::from_bits(self.bits.load(ordering))
    }

    pub fn store(&self, value: f32, ordering: Ordering) {
        self.bits.store(value.to_bits(), ordering);
    }
}

#[track_caller]
pub(crate) fn assert_valid_time_value(value: f64) {
    assert!(value.is_finite(), "TypeError - The provided time value is non-finite.");
    assert!(value >= 0., "RangeError - The provided time value ({value:?}) cannot be negative");
}

fn main() {
    std::panic::set_hook(Box::new(|_| ())); // a panic is an answer here
    let mut oracle = param::driver::Oracle::new();
    session::serve(|line| match line {
        session::Line::Blank => String::new(),
        session::Line::Unread => "unread".to_string(),
        session::Line::Call(call) => oracle.answer(call),
    });
}
