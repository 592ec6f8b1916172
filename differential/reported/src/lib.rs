//! The floats that the copy of the original reports, in its order; each thread has its own.

use std::cell::RefCell;

thread_local! {
    static FLOATS: RefCell<Vec<f32>> = const { RefCell::new(Vec::new()) };
}

/// Called by the line that build.sh puts into the copy.
pub fn add(value: f32) {
    FLOATS.with_borrow_mut(|floats| floats.push(value));
}

/// Those since it was called last.
pub fn taken() -> Vec<f32> {
    FLOATS.take()
}
