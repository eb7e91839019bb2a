//! Stand-ins for the render thread: the processor trait, the scope and the parameter values of a block.
use crate::context::AudioParamId;
use std::any::Any;
use std::cell::Cell;

mod quantum; // the original's
pub(crate) use quantum::*;

pub trait AudioProcessor: Send {
    fn process(
        &mut self,
        inputs: &[AudioRenderQuantum],
        outputs: &mut [AudioRenderQuantum],
        params: AudioParamValues<'_>,
        scope: &AudioWorkletGlobalScope,
    ) -> bool;

    fn onmessage(&mut self, msg: &mut dyn Any);

    fn before_drop(&mut self, scope: &AudioWorkletGlobalScope);
}

/// Time and output rate of a block; ended events are counted and otherwise dropped.
pub struct AudioWorkletGlobalScope {
    pub current_time: f64,
    pub sample_rate: f32,
    pub ended_events: Cell<u32>,
}

impl AudioWorkletGlobalScope {
    pub(crate) fn send_ended_event(&self) {
        self.ended_events.set(self.ended_events.get() + 1);
    }
}

/// The values of a block: index 0 is detune (unused), index 1 the playback rate; and the factor that
/// stands in for `(detune / 1200.).exp2()`.
pub struct AudioParamValues<'a> {
    pub values: &'a [[f32; 1]; 2],
    pub factor: f64,
}

impl AudioParamValues<'_> {
    pub fn get(&self, id: &AudioParamId) -> &[f32] {
        &self.values[id.0]
    }
}
