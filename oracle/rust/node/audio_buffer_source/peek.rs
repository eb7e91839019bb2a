//! Reads the renderer's private record for the `Z` line, and copies it for a preview. The only module of ours inside
//! the original's.
use super::{AudioBufferRendererState, AudioBufferSourceNode, AudioBufferSourceRenderer};
use crate::context::AudioParamId;
use crate::render::AudioProcessor;
use crate::AtomicF64;
use std::sync::atomic::Ordering;
use std::sync::Arc;

pub struct State {
    pub start: f64,
    pub stop: f64,
    pub offset: f64,
    pub duration: f64,
    pub looping: bool,
    pub loop_start: f64,
    pub loop_end: f64,
    pub position: f64,
    pub started: bool,
    pub entered: bool,
    pub elapsed: f64,
    pub aligned: bool,
    pub ended: bool,
    pub has_buffer: bool,
}

pub trait Player: AudioProcessor {
    fn state(&self) -> State;
    fn copied(&self) -> Box<dyn Player>;
}

impl Player for AudioBufferSourceRenderer {
    fn state(&self) -> State {
        State {
            start: self.start_time,
            stop: self.stop_time,
            offset: self.offset,
            duration: self.duration,
            looping: self.loop_state.is_looping,
            loop_start: self.loop_state.start,
            loop_end: self.loop_state.end,
            position: self.render_state.buffer_time.load(Ordering::Relaxed),
            started: self.render_state.started,
            entered: self.render_state.entered_loop,
            elapsed: self.render_state.buffer_time_elapsed,
            aligned: self.render_state.is_aligned,
            ended: self.render_state.ended,
            has_buffer: self.buffer.is_some(),
        }
    }

    /// Each field is named. The position, which the node reads too, is in a place of the copy's own.
    fn copied(&self) -> Box<dyn Player> {
        let state = &self.render_state;
        let position = state.buffer_time.load(Ordering::Relaxed);
        Box::new(AudioBufferSourceRenderer {
            start_time: self.start_time,
            stop_time: self.stop_time,
            offset: self.offset,
            duration: self.duration,
            buffer: self.buffer.clone(),
            detune: AudioParamId(self.detune.0),
            playback_rate: AudioParamId(self.playback_rate.0),
            loop_state: self.loop_state,
            render_state: AudioBufferRendererState {
                buffer_time: Arc::new(AtomicF64::new(position)),
                started: state.started,
                entered_loop: state.entered_loop,
                buffer_time_elapsed: state.buffer_time_elapsed,
                is_aligned: state.is_aligned,
                ended: state.ended,
            },
        })
    }
}

pub fn has_start(node: &AudioBufferSourceNode) -> bool {
    node.has_start
}
