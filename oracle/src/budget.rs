//! What the stand-ins observe while the Rust runs: a budget of accesses, and the flips.
//!
//! The Rust is not altered, so its loops end by a panic out of an accessor once the budget is spent,
//! and its flips are seen by `flip_cw`'s own first call, `as_directed`.

use std::cell::Cell;

thread_local! {
    static LEFT: Cell<u64> = const { Cell::new(u64::MAX) };
    static FLIPS: Cell<u64> = const { Cell::new(0) };
    static FAR_MISSING: Cell<[bool; 2]> = const { Cell::new([false; 2]) };
    static OTHER_FLIPS: Cell<u64> = const { Cell::new(0) };
}

/// The text of the panic that ends a loop.
pub const SPENT: &str = "the budget of accesses is spent";

pub fn set(accesses: u64) {
    LEFT.set(accesses);
}

/// One access to the mesh.
#[inline]
pub fn tick() {
    if cfg!(feature = "budget") {
        match LEFT.get() {
            0 => panic!("{SPENT}"),
            left => LEFT.set(left - 1),
        }
    }
}

/// An edge's far vertex was asked for. Both legalizations ask for the two of an edge before they flip.
#[inline]
pub fn far_asked(missing: bool) {
    if cfg!(feature = "budget") {
        FAR_MISSING.set([FAR_MISSING.get()[1], missing]);
    }
}

/// `flip_cw` begins.
#[inline]
pub fn flip() {
    if cfg!(feature = "budget") {
        FLIPS.set(FLIPS.get() + 1);
        if FAR_MISSING.get() != [false; 2] {
            OTHER_FLIPS.set(OTHER_FLIPS.get() + 1);
        }
    }
}

/// Flips so far, of the thread.
pub fn flips() -> u64 {
    FLIPS.get()
}

/// Flips so far that were made beside the outer face, so for another reason than the circle test.
pub fn other_flips() -> u64 {
    OTHER_FLIPS.get()
}
