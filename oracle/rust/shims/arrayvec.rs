//! Stand-in for the crate `arrayvec`: a list of at most N values. Only what quantum.rs calls.
use std::ops::{Deref, DerefMut};

#[derive(Clone, Debug)]
pub struct ArrayVec<T, const N: usize>(Vec<T>);

impl<T, const N: usize> ArrayVec<T, N> {
    #[allow(clippy::new_without_default)]
    pub fn new() -> Self {
        Self(Vec::with_capacity(N))
    }

    pub fn push(&mut self, value: T) {
        assert!(self.0.len() < N);
        self.0.push(value);
    }

    pub fn truncate(&mut self, n: usize) {
        self.0.truncate(n);
    }

    pub fn swap_remove(&mut self, i: usize) -> T {
        self.0.swap_remove(i)
    }
}

impl<T, const N: usize> Deref for ArrayVec<T, N> {
    type Target = [T];
    fn deref(&self) -> &[T] {
        &self.0
    }
}

impl<T, const N: usize> DerefMut for ArrayVec<T, N> {
    fn deref_mut(&mut self) -> &mut [T] {
        &mut self.0
    }
}
