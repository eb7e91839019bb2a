//! Stand-in for the crate `float_eq`, in the one form that buffer.rs uses: f32 subtraction, then the magnitude against
//! the relabel distance (docs/REFERENCE.md, 'Near tests and tolerances'), an f32 too, which is put before the original
//! is called. The bound that the original writes there, 0.1, is not read.
use std::cell::Cell;

thread_local! {
    static RELABEL: Cell<Option<f32>> = const { Cell::new(None) };
}

pub fn put(relabel: f32) {
    RELABEL.set(Some(relabel));
}

pub fn equal(a: f32, b: f32) -> bool {
    equal_within(RELABEL.get().expect("a relabel distance"), a, b)
}

pub fn equal_within(relabel: f32, a: f32, b: f32) -> bool {
    f32::abs(a - b) <= relabel
}

#[macro_export]
macro_rules! float_eq {
    ($a:expr, $b:expr, abs <= $bound:expr) => {{
        let _: f32 = $bound;
        $crate::equal($a, $b)
    }};
}
