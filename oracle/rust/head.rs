// The crate root of the oracle. `oracle/build.py` writes the original's src/lib.rs after this text, without
// its inner attributes and its module lines: limits, AtomicF64 and the assertions are the original's.

mod buffer; // the original's
mod context;
mod node;
mod param;
mod reach;
mod render;
mod replay;

pub use buffer::*;

fn main() {
    replay::main();
}
