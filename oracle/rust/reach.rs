//! Counts which way each condition of the instrumented copy went (`oracle/build.py --reach`). Unused, and
//! empty, in the plain oracle.
use std::cell::RefCell;

thread_local! {
    static COUNTS: RefCell<Vec<[u64; 2]>> = const { RefCell::new(Vec::new()) };
}

pub fn cond(id: usize, value: bool) -> bool {
    COUNTS.with_borrow_mut(|c| {
        if c.len() <= id {
            c.resize(id + 1, [0; 2]);
        }
        c[id][value as usize] += 1;
    });
    value
}

pub trait Optional {
    fn some(&self) -> bool;
}

impl<T> Optional for Option<T> {
    fn some(&self) -> bool {
        self.is_some()
    }
}

impl<T> Optional for &Option<T> {
    fn some(&self) -> bool {
        self.is_some()
    }
}

pub fn option<T: Optional>(id: usize, value: T) -> T {
    cond(id, value.some());
    value
}

/// Prints one line `id false true` for each condition that was reached, to standard error.
pub fn report() {
    COUNTS.with_borrow(|c| {
        for (id, n) in c.iter().enumerate() {
            eprintln!("{id} {} {}", n[0], n[1]);
        }
    });
}
