//! `replay positions COUNT`: plays a clip of 2^24 frames once at COUNT output rates, spread evenly over the
//! f32 patterns from 3,000 to 768,000, and prints the largest distance of the reported position from 128
//! frames a block, in frames.
use super::buffers::Shape;
use super::player::Player;
use super::ramp::Ramp;
use super::tolerances::Tolerances;
use crate::render::Alloc;

const BLOCKS: usize = 131_072;

/// The largest error while the player has not ended; each is one product and difference, rounded once.
fn largest_error(alloc: &Alloc, rate: f32, words: &[u32]) -> f64 {
    let mut player = Player::new(rate, Tolerances::default(), Ramp::default(), alloc);
    let shape = Shape {
        channels: 1,
        frames: words.len() as u64,
        rate,
    };
    player.clip(shape, words).expect("a first clip");
    player.start(0.0, 0.0, f64::MAX).expect("a first start");
    let mut largest: f64 = 0.0;
    for n in 1..=BLOCKS {
        player.process((128 * (n - 1)) as f64 / rate as f64, 1.0, 1.0);
        let state = player.state();
        if state.ended {
            break;
        }
        let error = state.position.mul_add(rate as f64, -((128 * n) as f64));
        largest = largest.max(error.abs());
    }
    largest
}

pub fn main(count: u32) {
    let alloc = Alloc::with_capacity(1);
    let words = vec![0; 128 * BLOCKS];
    let (first, last) = (3_000.0_f32.to_bits() as u64, 768_000.0_f32.to_bits() as u64);
    let rates = (0..count as u64).map(|i| f32::from_bits((first + i * (last - first) / count as u64) as u32));
    let (error, rate) = rates
        .map(|rate| (largest_error(&alloc, rate, &words), rate))
        .max_by(|a, b| a.0.total_cmp(&b.0))
        .expect("a rate");
    println!("{count} rates, largest error {error:e} frames at {rate}");
}
