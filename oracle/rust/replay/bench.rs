//! `replay bench`: the time of the original's calls, as lines `name ns`: for a block, or for a call of a million
//! frames. tools/bench.c makes the same runs of ours.
use super::buffers::Shape;
use super::player::Player;
use super::ramp::Ramp;
use super::tolerances::Tolerances;
use crate::render::Alloc;
use std::hint::black_box;
use std::time::Instant;

const RATE: f32 = 48_000.0;
const BLOCKS: usize = 4_000;
const MILLION: usize = 1_000_000;

/// Noise between -1 and 1, or the whole numbers from 0 on.
fn words(count: usize, noise: bool) -> Vec<u32> {
    let mut state = 1u32;
    let mut word = |i: usize| {
        state = state.wrapping_mul(1_664_525).wrapping_add(1_013_904_223);
        let frame = if noise { state as i32 as f32 / 2_147_483_648.0 } else { i as f32 };
        frame.to_bits()
    };
    (0..count).map(&mut word).collect()
}

fn shape(channels: usize, frames: usize, rate: f32) -> Shape {
    Shape {
        channels: channels as u64,
        frames: frames as u64,
        rate,
    }
}

/// A player that has played nothing yet: a clip that outlasts the run or, looped, one of 1,000 frames.
fn player(alloc: &Alloc, channels: usize, looped: bool, noise: bool) -> Player {
    let frames = if looped { 1_000 } else { 128 * (BLOCKS + 2) };
    let words = words(channels * frames, noise);
    let mut player = Player::new(RATE, Tolerances::default(), Ramp::default(), alloc);
    player.clip(shape(channels, frames, RATE), &words).expect("a first clip");
    player.looping(looped);
    player.start(0.0, 0.0, f64::MAX).expect("a first start");
    player
}

/// The best of three.
fn best(mut run: impl FnMut() -> u128) -> u128 {
    (0..3).map(|_| run()).min().unwrap()
}

fn block(alloc: &Alloc, channels: usize, looped: bool, rate: f32, noise: bool) -> u128 {
    best(|| {
        let mut player = player(alloc, channels, looped, noise);
        let began = Instant::now();
        for block in 0..BLOCKS {
            let time = (128 * block) as f64 / RATE as f64;
            black_box(player.process(black_box(time), black_box(rate), black_box(1.0)));
        }
        began.elapsed().as_nanos() / BLOCKS as u128
    })
}

fn blocks() {
    let alloc = Alloc::with_capacity(32);
    for (kind, rate) in [("aligned", 1.0), ("subsample", 0.75)] {
        for (end, looped) in [("once", false), ("looped", true)] {
            for channels in [1, 2, 8, 32] {
                println!("{kind}-{end}-{channels} {}", block(&alloc, channels, looped, rate, true));
            }
        }
    }
    println!("subsample-whole-numbers-32 {}", block(&alloc, 32, false, 0.75, false));
}

fn copies() {
    let mut buffer = shape(1, MILLION, RATE).buffer(&words(MILLION, true));
    let mut frames = vec![0.0f32; MILLION];
    let copy_from = best(|| {
        let began = Instant::now();
        black_box(&buffer).copy_from_channel(black_box(&mut frames), 0);
        began.elapsed().as_nanos()
    });
    let copy_to = best(|| {
        let began = Instant::now();
        black_box(&mut buffer).copy_to_channel(black_box(&frames), 0);
        began.elapsed().as_nanos()
    });
    println!("copy-from-channel {copy_from}\ncopy-to-channel {copy_to}");
}

/// The original's own, which reads elsewhere than docs/REFERENCE.md, 'Conversion'.
fn conversions() {
    for channels in [1, 2, 8] {
        let buffer = shape(channels, MILLION, 44_100.0).buffer(&words(channels * MILLION, true));
        let convert = best(|| {
            let mut converted = buffer.clone();
            Tolerances::default().put();
            let began = Instant::now();
            converted.resample(black_box(RATE));
            black_box(&converted);
            began.elapsed().as_nanos()
        });
        println!("convert-{channels} {convert}");
    }
}

pub fn main() {
    blocks();
    copies();
    conversions();
}
