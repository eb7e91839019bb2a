//! Stand-ins for the node traits and channel settings that the source node names. A source has no
//! input, so the settings do nothing.
use crate::context::AudioContextRegistration;

mod audio_buffer_source; // the original's, with peek.rs as its child
pub use audio_buffer_source::peek::{has_start, Player, State};
pub use audio_buffer_source::{AudioBufferSourceNode, AudioBufferSourceOptions};

pub trait AudioNode {
    fn registration(&self) -> &AudioContextRegistration;
    fn channel_config(&self) -> &ChannelConfig;
    fn number_of_inputs(&self) -> usize;
    fn number_of_outputs(&self) -> usize;
}

pub trait AudioScheduledSourceNode: AudioNode {
    fn start(&mut self);
    fn start_at(&mut self, when: f64);
    fn stop(&mut self);
    fn stop_at(&mut self, when: f64);
}

#[derive(Debug, Default)]
pub struct ChannelConfig;

pub(crate) struct ChannelConfigInner {
    pub count: usize,
    pub count_mode: ChannelCountMode,
    pub interpretation: ChannelInterpretation,
}

#[derive(Clone, Copy)]
pub enum ChannelCountMode {
    Max,
    ClampedMax,
    Explicit,
}

#[derive(Clone, Copy, PartialEq)]
pub enum ChannelInterpretation {
    Speakers,
    Discrete,
}
