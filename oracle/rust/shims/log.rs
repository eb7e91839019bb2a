//! Stand-in for the crate `log`: says nothing.

#[macro_export]
macro_rules! warn {
    ($($words:tt)*) => {{
        let _ = format_args!($($words)*);
    }};
}
