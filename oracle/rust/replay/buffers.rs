//! The buffer calls: copies, extend, split, convert. Row 1 was checked when the first line was read.
use super::print::{bits, put_buffer, put_count, put_runs};
use super::resampling::resampled;
use super::table::{check, row_2_rate, Refusal, FRAMES_MAX};
use super::tolerances::Tolerances;
use crate::buffer::AudioBuffer;

const UNTOUCHED: u32 = 0xDEAD_BEEF;

#[derive(Clone, Copy)]
pub struct Shape {
    pub channels: u64,
    pub frames: u64,
    pub rate: f32,
}

impl Shape {
    pub fn words(self) -> u64 {
        self.channels * self.frames
    }

    pub fn buffer(self, words: &[u32]) -> AudioBuffer {
        let frames = self.frames as usize;
        let channel = |c: usize| {
            words[c * frames..(c + 1) * frames]
                .iter()
                .map(|w| f32::from_bits(*w))
        };
        let samples = (0..self.channels as usize)
            .map(|c| channel(c).collect())
            .collect();
        AudioBuffer::from(samples, self.rate)
    }
}

/// The original returns no count. It copies into two destinations that differ everywhere before: the
/// places that agree afterwards were written.
pub fn copy_from(
    shape: Shape,
    (channel, offset, len): (u64, u64, u64),
    words: &[u32],
    out: &mut Vec<u8>,
) -> Result<(), Refusal> {
    check(channel < shape.channels, 3)?;
    let buffer = shape.buffer(words);
    let copied = |fill: u32| {
        let mut destination = vec![f32::from_bits(fill); len as usize];
        buffer.copy_from_channel_with_offset(&mut destination, channel as usize, offset as usize);
        destination
    };
    let (one, other) = (copied(UNTOUCHED), copied(!UNTOUCHED));
    let written = one.iter().zip(&other).filter(|(a, b)| a.to_bits() == b.to_bits());
    put_count(out, written.count());
    put_runs(out, 0, one.iter().map(bits));
    Ok(())
}

/// As above, with two sources that differ everywhere: the places that differ afterwards were written.
pub fn copy_to(
    shape: Shape,
    (channel, offset): (u64, u64),
    words: &[u32],
    out: &mut Vec<u8>,
) -> Result<(), Refusal> {
    check(channel < shape.channels, 3)?;
    let (old, source) = words.split_at(shape.words() as usize);
    let copied = |mask: u32| {
        let mut after = shape.buffer(old);
        let source: Vec<f32> = source.iter().map(|w| f32::from_bits(w ^ mask)).collect();
        after.copy_to_channel_with_offset(&source, channel as usize, offset as usize);
        after
    };
    let (one, other) = (copied(0), copied(u32::MAX));
    let pairs = |c| one.get_channel_data(c).iter().zip(other.get_channel_data(c));
    let written = (0..one.number_of_channels())
        .flat_map(pairs)
        .filter(|(a, b)| a.to_bits() != b.to_bits());
    put_count(out, written.count());
    put_buffer(out, b'K', &one);
    Ok(())
}

pub fn extend(first: Shape, second: Shape, words: &[u32], out: &mut Vec<u8>) -> Result<(), Refusal> {
    row_2_rate(first.rate)?;
    row_2_rate(second.rate)?;
    check(first.rate == second.rate && first.channels == second.channels, 4)?;
    check(first.frames + second.frames <= FRAMES_MAX, 7)?;
    let (before, after) = words.split_at(first.words() as usize);
    let mut joined = first.buffer(before);
    joined.extend(&second.buffer(after));
    put_buffer(out, b'J', &joined);
    Ok(())
}

pub fn split(shape: Shape, point: u64, words: &[u32], out: &mut Vec<u8>) -> Result<(), Refusal> {
    row_2_rate(shape.rate)?;
    check(point <= shape.frames, 5)?;
    let mut first = shape.buffer(words);
    let rest = first.split_off(point as usize);
    put_buffer(out, b'V', &first);
    put_buffer(out, b'V', &rest);
    Ok(())
}

/// The original says whether it relabels, and the result's length and rate; the frames of a real change are
/// resampling.rs's.
pub fn convert(
    shape: Shape,
    wanted: f32,
    tolerances: Tolerances,
    words: &[u32],
    out: &mut Vec<u8>,
) -> Result<(), Refusal> {
    row_2_rate(shape.rate)?;
    row_2_rate(wanted)?;
    let changed = (shape.rate - wanted).abs() > tolerances.relabel && shape.frames > 0;
    let length = (shape.frames as f64 * (wanted as f64 / shape.rate as f64)).ceil();
    check(!changed || length <= FRAMES_MAX as f64, 7)?;
    let source = shape.buffer(words);
    let mut buffer = source.clone();
    tolerances.put();
    buffer.resample(wanted);
    let relabelled = buffer.get_channel_data(0).as_ptr() == source.get_channel_data(0).as_ptr();
    if !relabelled {
        for c in 0..buffer.number_of_channels() {
            let frames = resampled(source.get_channel_data(c), shape.rate, wanted, buffer.length());
            buffer.get_channel_data_mut(c).copy_from_slice(&frames);
        }
    }
    put_buffer(out, b'Q', &buffer);
    Ok(())
}
