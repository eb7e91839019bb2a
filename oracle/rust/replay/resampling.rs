//! The frames of a conversion by a real change (docs/REFERENCE.md, 'Conversion'). The original reads them elsewhere,
//! so they come from the section's words and the processor's floats.
use super::print::calculated;

/// Frame i is read at its own instant in the original: i times the source's rate, then by the target's, in f64.
pub fn resampled(frames: &[f32], source: f32, target: f32, length: usize) -> Vec<f32> {
    let position = |i: usize| i as f64 * source as f64 / target as f64;
    (0..length).map(|i| read(frames, position(i))).collect()
}

/// Above N − 1 the last frame's bits stand as they are. Any other read is (1 − k) × the frame + k × the next
/// (or last), each step rounded to f32, where k is the fraction narrowed to f32.
fn read(frames: &[f32], position: f64) -> f32 {
    let last = frames.len() - 1;
    if position > last as f64 {
        return frames[last];
    }
    let at = position.floor();
    let k = (position - at) as f32;
    let (frame, next) = (frames[at as usize], frames[(at as usize + 1).min(last)]);
    f32::from_bits(calculated(&((1.0 - k) * frame + k * next)))
}
