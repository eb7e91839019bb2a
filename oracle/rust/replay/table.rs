//! The rows of docs/REFERENCE.md, 'Refusals'. A refusal is the row's number;
//! 0 is a line that isn't one of the protocol's.
use super::buffers::Shape;

pub type Refusal = u8;

pub const FRAMES_MAX: u64 = 16_777_216;
const BLOCK_TIME_MAX: f64 = 1_073_741_824.0; // 2^30
const FACTOR_MAX: f64 = 18_446_744_073_709_551_616.0; // 2^64

pub fn check(accepted: bool, number: Refusal) -> Result<(), Refusal> {
    if accepted {
        Ok(())
    } else {
        Err(number)
    }
}

pub fn row_1_shape(shape: Shape) -> Result<(), Refusal> {
    check(
        (1..=32).contains(&shape.channels) && shape.frames <= FRAMES_MAX,
        1,
    )
}

/// False for a NaN.
pub fn row_2_rate(rate: f32) -> Result<(), Refusal> {
    check((3_000.0..=768_000.0).contains(&rate), 2)
}

/// A start's three times, and a stop; −0 is not negative.
pub fn row_9_time(value: f64) -> Result<(), Refusal> {
    check(value.is_finite() && value >= 0.0, 9)
}

pub fn row_9_loop_point(value: f64) -> Result<(), Refusal> {
    check(value.is_finite(), 9)
}

/// `last` is the last accepted block's time.
pub fn row_13_block_time(time: f64, last: Option<f64>) -> Result<(), Refusal> {
    let above = last.is_none_or(|last| time > last);
    check((0.0..=BLOCK_TIME_MAX).contains(&time) && above, 13)
}

pub fn row_14_rates(rate: f32, factor: f64) -> Result<(), Refusal> {
    check(
        rate.is_finite() && (1.0 / FACTOR_MAX..=FACTOR_MAX).contains(&factor),
        14,
    )
}

pub fn row_16_cents(cents: i32) -> Result<(), Refusal> {
    check((-12_000..=12_000).contains(&cents), 16)
}

/// A tolerance is finite, and from 0 to 1; −0 is not below 0.
pub fn row_18_tolerance(value: f64) -> Result<(), Refusal> {
    check(value.is_finite() && !(value < 0.0 || value > 1.0), 18)
}

/// A ramp's length in frames.
pub fn row_19_ramp(length: u64) -> Result<(), Refusal> {
    check(length <= 48_000, 19)
}
