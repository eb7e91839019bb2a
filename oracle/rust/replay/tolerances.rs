//! The record of near, near zero and the relabel distance, which a player is made with and keeps, and a conversion
//! is handed (docs/REFERENCE.md, 'Near tests and tolerances').
use super::table::{row_18_tolerance, Refusal};
use super::text::Words;

#[derive(Clone, Copy)]
pub struct Tolerances {
    pub near: f64,
    pub near_zero: f64,
    pub relabel: f32,
}

impl Default for Tolerances {
    /// 2^-26, 2^-26 and 0.1 as f32.
    fn default() -> Self {
        Tolerances {
            near: 1.0 / 67_108_864.0,
            near_zero: 1.0 / 67_108_864.0,
            relabel: 0.1,
        }
    }
}

impl Tolerances {
    /// The next three words, not yet checked; the defaults where fewer than two are left.
    pub fn of(words: &mut Words) -> Result<Self, Refusal> {
        if words.left() < 2 {
            return Ok(Tolerances::default());
        }
        Ok(Tolerances {
            near: words.f64()?,
            near_zero: words.f64()?,
            relabel: words.f32()?,
        })
    }

    /// The record, or 18.
    pub fn made(self) -> Result<Self, Refusal> {
        row_18_tolerance(self.near)?;
        row_18_tolerance(self.near_zero)?;
        row_18_tolerance(self.relabel as f64)?;
        Ok(self)
    }

    /// Hands them to the stand-ins, whose tests the original calls.
    pub fn put(self) {
        almost::put(self.near, self.near_zero);
        float_eq::put(self.relabel);
    }
}
