//! A child module of param.rs, declared by one line that speed/run puts behind the unchanged text: the Rust's parameter with its
//! calls taken in at once, and blocks played on it. A block is `compute_intrinsic_values`, then `mix_to_output` with silence.

use super::*;

pub struct Original {
    param: AudioParam,
    processor: AudioParamProcessor,
    silence: AudioRenderQuantum,
    output: AudioRenderQuantum,
}

impl Original {
    pub fn new(min_value: f32, default_value: f32, max_value: f32, a_rate: bool) -> Self {
        let automation_rate = if a_rate { AutomationRate::A } else { AutomationRate::K };
        let name = String::new();
        let descriptor =
            AudioParamDescriptor { name, automation_rate, default_value, min_value, max_value };
        let (param, processor) = audio_param_pair(descriptor, AudioContextRegistration::default());
        let silence = AudioRenderQuantum::of(&[]);
        Self { param, processor, output: silence.clone(), silence }
    }

    fn take_in(&mut self) {
        while let Some(mut message) = self.param.registration.next_message() {
            self.processor.onmessage(&mut *message);
        }
    }

    pub fn step(&mut self, value: f32, time: f64) {
        self.param.set_value_at_time(value, time);
        self.take_in();
    }

    pub fn linear(&mut self, value: f32, time: f64) {
        self.param.linear_ramp_to_value_at_time(value, time);
        self.take_in();
    }

    pub fn exponential(&mut self, value: f32, time: f64) {
        self.param.exponential_ramp_to_value_at_time(value, time);
        self.take_in();
    }

    pub fn target(&mut self, value: f32, time: f64, constant: f64) {
        self.param.set_target_at_time(value, time, constant);
        self.take_in();
    }

    pub fn curve(&mut self, values: &[f32], time: f64, duration: f64) {
        self.param.set_value_curve_at_time(values, time, duration);
        self.take_in();
    }

    pub fn hold(&mut self, time: f64) {
        self.param.cancel_and_hold_at_time(time);
        self.take_in();
    }

    /// So many blocks, one behind the other.
    #[inline(never)]
    pub fn blocks(&mut self, time: f64, period: f64, count: usize, advance: f64, blocks: usize) {
        let mut time = time;
        for _ in 0..blocks {
            self.processor.compute_intrinsic_values(time, period, count);
            self.processor.mix_to_output(&self.silence, &mut self.output);
            time += advance;
        }
    }

    /// The samples of the last block.
    pub fn samples(&self, count: usize) -> Vec<f32> {
        let one = self.output.single_valued();
        let data = self.output.channel_data(0);
        (0..count).map(|i| data[if one { 0 } else { i }]).collect()
    }
}
