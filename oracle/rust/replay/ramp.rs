//! Linear ramps at onset and stop (docs/REFERENCE.md, 'Ramps'): what the original has played is multiplied by the factor
//! of each sample's number. The original knows nothing of it, and nothing of ours is read.
use super::table::{row_19_ramp, Refusal};
use crate::node::State;
use crate::render::AudioRenderQuantum;

const COUNT_MAX: u64 = 1 << 53;
const STOP_SAMPLE_MAX: f64 = 4_503_599_627_370_496.0; // 2^52
const NAN: u32 = 0x7FC0_0000;
const BLOCK: usize = 128;

/// An accepted block: its time, the output's rate, and the original's record before and after it.
pub struct Played {
    pub time: f64,
    pub rate: f32,
    pub before: State,
    pub after: State,
}

#[derive(Clone, Copy, Default)]
pub struct Ramp {
    /// Frames; 0 is no ramp.
    pub length: u64,
    /// The number of the sample that counts next; that of the starting sample is 0.
    pub count: u64,
    /// The number of the sample at the stop, where that is known.
    pub stop_sample: Option<u64>,
}

impl Ramp {
    pub fn new(length: u64) -> Result<Self, Refusal> {
        row_19_ramp(length)?;
        Ok(Ramp {
            length,
            ..Ramp::default()
        })
    }

    /// A stop that was accepted. Before the starting sample nothing is worked out.
    pub fn stopped(&mut self, player: &State, rate: f32) {
        if player.started {
            self.stop_sample = stop_sample(player.start, player.stop, rate);
        }
    }

    /// Counts a block's samples, and multiplies them.
    pub fn ramp(&mut self, block: &Played, output: &mut AudioRenderQuantum) {
        let Some(first) = block.first_counted() else {
            return;
        };
        if !block.before.started {
            self.stop_sample = stop_sample(block.after.start, block.after.stop, block.rate);
        }
        for channel in output.channels() {
            let idle = channel[..first].iter().all(|sample| sample.to_bits() == 0);
            assert!(idle, "a sample before the starting one is not zero");
        }
        for i in first..BLOCK {
            if let Some(factor) = self.factor(self.count) {
                for channel in output.channels_mut() {
                    channel[i] = product(channel[i], factor);
                }
            }
            self.count = (self.count + 1).min(COUNT_MAX);
        }
    }

    /// The factor of sample j: the smaller of the rising one and the falling one; none where there is neither.
    fn factor(&self, j: u64) -> Option<f32> {
        if self.length == 0 {
            return None;
        }
        let share = |n: u64| n as f32 / self.length as f32;
        let rising = (j < self.length).then(|| share(j));
        let falling = match self.stop_sample {
            Some(w) if j > w => Some(0.0),
            Some(w) if w - j < self.length => Some(share(w - j)),
            _ => None,
        };
        match (rising, falling) {
            (Some(up), Some(down)) => Some(up.min(down)),
            (up, down) => up.or(down),
        }
    }
}

impl Played {
    /// The first sample of the block that counts; none where none does. Of an aligned block that starts the clip it is
    /// sample 0; of another one the first whose instant has reached the start, as that was snapped and moved.
    fn first_counted(&self) -> Option<usize> {
        let (before, after) = (&self.before, &self.after);
        if before.ended || !after.started {
            return None;
        }
        if before.started || after.aligned {
            return Some(0);
        }
        let step = 1.0 / self.rate as f64;
        (0..BLOCK).find(|i| self.time + *i as f64 * step >= after.start)
    }
}

/// (stop - start) x rate, rounded down; negative as 0, and never above 2^52. None where the stop is none.
fn stop_sample(start: f64, stop: f64, rate: f32) -> Option<u64> {
    let number = (stop - start) * rate as f64;
    (stop != f64::MAX).then(|| number.floor().max(0.0).min(STOP_SAMPLE_MAX) as u64)
}

fn product(sample: f32, factor: f32) -> f32 {
    let product = sample * factor;
    if product.is_nan() {
        f32::from_bits(NAN)
    } else {
        product
    }
}
