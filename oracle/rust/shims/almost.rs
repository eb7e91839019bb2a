//! Stand-in for the crate `almost`, as docs/REFERENCE.md, 'Near tests and tolerances' defines it for both sides. The
//! tolerances are put before the original is called (replay/tolerances.rs), and every near test reads them. None is
//! built in.
use std::cell::Cell;

thread_local! {
    static NEAR: Cell<Option<f64>> = const { Cell::new(None) };
    static NEAR_ZERO: Cell<Option<f64>> = const { Cell::new(None) };
}

pub fn put(near: f64, near_zero: f64) {
    NEAR.set(Some(near));
    NEAR_ZERO.set(Some(near_zero));
}

#[inline]
pub fn equal(a: f64, b: f64) -> bool {
    equal_within(NEAR.get().expect("a near tolerance"), a, b)
}

#[inline]
pub fn zero(a: f64) -> bool {
    zero_within(NEAR_ZERO.get().expect("a near-zero tolerance"), a)
}

/// Equal, or nearer than the tolerance times the larger magnitude; difference and product rounded to f64.
#[inline]
pub fn equal_within(near: f64, a: f64, b: f64) -> bool {
    a == b || (a - b).abs() < near * a.abs().max(b.abs())
}

/// Magnitude below the tolerance.
#[inline]
pub fn zero_within(near_zero: f64, a: f64) -> bool {
    a.abs() < near_zero
}
