//! What the protocol's answers look like.
use super::text::{put_decimal, put_hex32, put_hex64};
use crate::buffer::AudioBuffer;

const NAN: u32 = 0x7FC0_0000;

pub fn flag(out: &mut Vec<u8>, value: bool) {
    out.extend_from_slice(if value { b" 1" } else { b" 0" });
}

pub fn put_f64(out: &mut Vec<u8>, value: f64) {
    out.push(b' ');
    put_hex64(
        out,
        if value.is_nan() {
            0x7FF8_0000_0000_0000
        } else {
            value.to_bits()
        },
    );
}

/// One line `channel first count bits` for each run of equal bits.
pub fn put_runs(out: &mut Vec<u8>, channel: u64, bits: impl Iterator<Item = u32>) {
    let mut line = |first: u64, count: u64, bits: u32| {
        put_decimal(out, channel);
        out.push(b' ');
        put_decimal(out, first);
        out.push(b' ');
        put_decimal(out, count);
        out.push(b' ');
        put_hex32(out, bits);
        out.push(b'\n');
    };
    let mut run: Option<(u64, u64, u32)> = None;
    for word in bits {
        run = match run {
            Some((first, count, old)) if old == word => Some((first, count + 1, old)),
            Some((first, count, old)) => {
                line(first, count, old);
                Some((first + count, 1, word))
            }
            None => Some((0, 1, word)),
        };
    }
    if let Some((first, count, bits)) = run {
        line(first, count, bits);
    }
}

pub fn bits(sample: &f32) -> u32 {
    sample.to_bits()
}

/// A calculated NaN is 7FC00000 (docs/REFERENCE.md, 'Rounding').
pub fn calculated(sample: &f32) -> u32 {
    if sample.is_nan() {
        NAN
    } else {
        sample.to_bits()
    }
}

pub fn put_count(out: &mut Vec<u8>, count: usize) {
    out.extend_from_slice(b"K ");
    put_decimal(out, count as u64);
    out.push(b'\n');
}

fn put_shape(out: &mut Vec<u8>, letter: u8, buffer: &AudioBuffer) {
    out.extend_from_slice(&[letter, b' ']);
    put_decimal(out, buffer.number_of_channels() as u64);
    out.push(b' ');
    put_decimal(out, buffer.length() as u64);
    out.push(b' ');
    put_hex32(out, buffer.sample_rate().to_bits());
    out.push(b'\n');
}

pub fn put_buffer(out: &mut Vec<u8>, letter: u8, buffer: &AudioBuffer) {
    put_shape(out, letter, buffer);
    for c in 0..buffer.number_of_channels() {
        put_runs(out, c as u64, buffer.get_channel_data(c).iter().map(bits));
    }
}
