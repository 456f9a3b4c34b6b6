//! Stand-in for the crate's `render`: one channel of 128 samples, silent or
//! not, one-valued or not. In the crate a quantum is silent where it is the
//! shared block of zeros; here the driver says so (an input of length 0).

use crate::RENDER_QUANTUM_SIZE;
use std::any::Any;

#[derive(Debug)]
pub struct AudioParamValues<'a>(#[allow(dead_code)] &'a ());

#[derive(Debug)]
pub struct AudioWorkletGlobalScope {
    pub current_time: f64,
    pub sample_rate: f32,
}

#[derive(Clone, Debug)]
pub struct AudioRenderQuantum {
    samples: [f32; RENDER_QUANTUM_SIZE],
    silent: bool,
    single_valued: bool,
}

impl AudioRenderQuantum {
    /// Ours: silence where `input` is empty, else its numbers and zeros behind.
    pub fn of(input: &[f32]) -> Self {
        let mut samples = [0.; RENDER_QUANTUM_SIZE];
        samples[..input.len()].copy_from_slice(input);
        Self { samples, silent: input.is_empty(), single_valued: false }
    }

    pub fn is_silent(&self) -> bool {
        self.silent
    }

    pub fn single_valued(&self) -> bool {
        self.single_valued
    }

    pub fn set_single_valued(&mut self, value: bool) {
        self.single_valued = value;
    }

    pub fn channel_data(&self, _channel: usize) -> &[f32] {
        &self.samples
    }

    pub fn channel_data_mut(&mut self, _channel: usize) -> &mut [f32] {
        self.silent = false;
        &mut self.samples
    }
}

pub trait AudioProcessor {
    fn process(
        &mut self,
        inputs: &[AudioRenderQuantum],
        outputs: &mut [AudioRenderQuantum],
        params: AudioParamValues<'_>,
        scope: &AudioWorkletGlobalScope,
    ) -> bool;

    fn onmessage(&mut self, msg: &mut dyn Any);
}
