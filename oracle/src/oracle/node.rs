//! Stand-in for the crate's `node`: the names that param.rs mentions. None of
//! it takes part in what a parameter computes.

use crate::context::AudioContextRegistration;

#[derive(Clone, Copy, Debug)]
pub enum ChannelCountMode {
    Explicit,
}

#[derive(Clone, Copy, Debug)]
pub enum ChannelInterpretation {
    Discrete,
}

#[derive(Debug)]
pub struct AudioNodeOptions {
    pub channel_count: usize,
    pub channel_count_mode: ChannelCountMode,
    pub channel_interpretation: ChannelInterpretation,
}

#[derive(Debug)]
pub struct ChannelConfig(#[allow(dead_code)] AudioNodeOptions);

impl From<AudioNodeOptions> for ChannelConfig {
    fn from(options: AudioNodeOptions) -> Self {
        Self(options)
    }
}

pub trait AudioNode {
    fn registration(&self) -> &AudioContextRegistration;
    fn channel_config(&self) -> &'static ChannelConfig;
    fn number_of_inputs(&self) -> usize;
    fn number_of_outputs(&self) -> usize;
    fn set_channel_count(&self, v: usize);
    fn set_channel_count_mode(&self, v: ChannelCountMode);
    fn set_channel_interpretation(&self, v: ChannelInterpretation);
}
