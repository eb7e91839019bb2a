//! The player: the original's source node and renderer. What the table refuses is refused here, everything else
//! reaches the original.
use super::buffers::Shape;
use super::ramp::{Played, Ramp};
use super::table::{check, row_2_rate, row_9_loop_point, row_9_time, Refusal};
use super::tolerances::Tolerances;
use crate::context::Context;
use crate::node::{
    has_start, AudioBufferSourceNode, AudioBufferSourceOptions, AudioScheduledSourceNode, State,
};
use crate::render::{Alloc, AudioParamValues, AudioRenderQuantum, AudioWorkletGlobalScope};
use std::cell::Cell;

pub struct Player {
    rate: f32,
    pub tolerances: Tolerances,
    pub ramp: Ramp,
    context: Context,
    node: AudioBufferSourceNode,
    pub outputs: [AudioRenderQuantum; 1],
    pub shape: Option<Shape>,
    pub last: Option<f64>,
}

impl Player {
    pub fn new(rate: f32, tolerances: Tolerances, ramp: Ramp, alloc: &Alloc) -> Self {
        let context = Context::default();
        let node = AudioBufferSourceNode::new(&context, AudioBufferSourceOptions::default());
        let outputs = [AudioRenderQuantum::from(alloc.silence())];
        Player {
            rate,
            tolerances,
            ramp,
            context,
            node,
            outputs,
            shape: None,
            last: None,
        }
    }

    /// A copy for a preview: the renderer, the tolerances and the ramp, with an output of its own. The node is a new one, and is sent no
    /// messages.
    pub fn copied(&self, alloc: &Alloc) -> Self {
        let renderer = self.context.renderer.borrow().as_ref().unwrap().copied();
        let copy = Player::new(self.rate, self.tolerances, self.ramp, alloc);
        *copy.context.renderer.borrow_mut() = Some(renderer);
        Player {
            shape: self.shape,
            last: self.last,
            ..copy
        }
    }

    /// Row 1 was checked when the first line was read.
    pub fn clip(&mut self, shape: Shape, words: &[u32]) -> Result<(), Refusal> {
        row_2_rate(shape.rate)?;
        check(self.shape.is_none(), 10)?;
        check(shape.frames > 0, 12)?;
        self.shape = Some(shape);
        self.node.set_buffer(shape.buffer(words));
        Ok(())
    }

    pub fn start(&mut self, when: f64, offset: f64, duration: f64) -> Result<(), Refusal> {
        row_9_time(when)?;
        row_9_time(offset)?;
        row_9_time(duration)?;
        check(!self.has_start(), 10)?;
        self.node
            .start_at_with_offset_and_duration(when, offset, duration);
        Ok(())
    }

    pub fn stop(&mut self, when: f64) -> Result<(), Refusal> {
        row_9_time(when)?;
        check(self.has_start(), 11)?;
        self.node.stop_at(when);
        self.ramp.stopped(&self.state(), self.rate);
        Ok(())
    }

    pub fn looping(&mut self, on: bool) {
        self.node.set_loop(on);
    }

    pub fn loop_start(&mut self, value: f64) -> Result<(), Refusal> {
        row_9_loop_point(value)?;
        self.node.set_loop_start(value);
        Ok(())
    }

    pub fn loop_end(&mut self, value: f64) -> Result<(), Refusal> {
        row_9_loop_point(value)?;
        self.node.set_loop_end(value);
        Ok(())
    }

    /// Keep-alive of the original's `process`, whose near tests get the player's tolerances.
    pub fn process(&mut self, time: f64, rate: f32, factor: f64) -> bool {
        let scope = AudioWorkletGlobalScope {
            current_time: time,
            sample_rate: self.rate,
            ended_events: Cell::new(0),
        };
        let params = AudioParamValues {
            values: &[[0.0], [rate]],
            factor,
        };
        self.tolerances.put();
        let mut slot = self.context.renderer.borrow_mut();
        let renderer = slot.as_mut().unwrap();
        renderer.process(&[], &mut self.outputs, params, &scope)
    }

    /// Keep-alive of a block, whose samples are then ramped.
    pub fn play(&mut self, time: f64, rate: f32, factor: f64) -> bool {
        let before = self.state();
        let keep_alive = self.process(time, rate, factor);
        let block = Played {
            time,
            rate: self.rate,
            before,
            after: self.state(),
        };
        self.ramp.ramp(&block, &mut self.outputs[0]);
        keep_alive
    }

    /// After a panic of `process`: whether it is one of the two cases of docs/REFERENCE.md, 'Scope and judges'. The
    /// position is still the one before the block.
    pub fn may_panic(&self) -> bool {
        let state = self.state();
        let short = self.shape.is_some_and(|shape| shape.frames < 128);
        let far = state.position * self.rate as f64 >= 18_446_744_073_709_551_616.0;
        state.aligned && (state.position < 0.0 && short || far && !state.looping)
    }

    pub fn has_start(&self) -> bool {
        has_start(&self.node)
    }

    pub fn state(&self) -> State {
        self.context.renderer.borrow().as_ref().unwrap().state()
    }
}
