//! Stand-in for the original's context: one source node and its renderer, on one thread. A message is
//! handed to the renderer's `onmessage` at once.
use crate::node::Player;
use crate::param::{AudioParam, AudioParamDescriptor};
use std::any::Any;
use std::cell::{Cell, RefCell};
use std::rc::Rc;

/// 0 for the first parameter that a node makes (detune), 1 for the second (playback rate).
#[derive(Debug)]
pub struct AudioParamId(pub usize);

pub type Slot = Rc<RefCell<Option<Box<dyn Player>>>>;

#[derive(Clone, Default)]
pub struct Context {
    pub renderer: Slot,
    params: Rc<Cell<usize>>,
}

pub trait BaseAudioContext {
    fn base(&self) -> &Context;
    fn create_audio_param(
        &self,
        descriptor: AudioParamDescriptor,
        registration: &AudioContextRegistration,
    ) -> (AudioParam, AudioParamId);
}

impl BaseAudioContext for Context {
    fn base(&self) -> &Context {
        self
    }

    fn create_audio_param(
        &self,
        _: AudioParamDescriptor,
        _: &AudioContextRegistration,
    ) -> (AudioParam, AudioParamId) {
        let id = self.params.get();
        self.params.set(id + 1);
        (AudioParam, AudioParamId(id))
    }
}

impl Context {
    pub fn register<N, P: Player + 'static>(
        &self,
        make: impl FnOnce(AudioContextRegistration) -> (N, Box<P>),
    ) -> N {
        let (node, renderer) = make(AudioContextRegistration {
            context: self.clone(),
        });
        *self.renderer.borrow_mut() = Some(renderer);
        node
    }

    pub fn current_time(&self) -> f64 {
        unreachable!("the oracle hands in every time")
    }
}

pub struct AudioContextRegistration {
    context: Context,
}

impl std::fmt::Debug for AudioContextRegistration {
    fn fmt(&self, f: &mut std::fmt::Formatter<'_>) -> std::fmt::Result {
        f.write_str("AudioContextRegistration")
    }
}

impl AudioContextRegistration {
    pub fn context(&self) -> &Context {
        &self.context
    }

    pub fn post_message<M: Any + Send + 'static>(&self, mut message: M) {
        let mut slot = self.context.renderer.borrow_mut();
        slot.as_mut().unwrap().onmessage(&mut message);
    }
}
