//! Document 01 in plain Rust, over the flat bytes and without allocation, with the requests of
//! document 02 that have landed: N1, conditionals, N9, what can never be a symbol, N5, called
//! functions under tree-shake-only, and N6, places with both ends.
//!
//! The port is the baseline for speed and the reference for refusals and effects. It is written
//! from the two documents, in the order of 01's sections: the tree file (`tree`), the refusals
//! (`check`), the handlers (`outcome` decides, `reduce` writes), the effect list (`effects`), the
//! Derived question (`derived`) and the premise of demand 3 (`premise`). What reads records is compiled
//! for each of the two widths that they have, so that neither version is slower for the other.

#![forbid(unsafe_code)]

mod check;
mod derived;
mod effects;
mod outcome;
mod premise;
mod reduce;
mod tree;

pub use check::{Limits, check};
pub use derived::{Derived, derived};
pub use effects::{Listed, list_effects, list_effects_given};
pub use outcome::{Marks, Outcome};
pub use premise::Read;
pub use reduce::{Reduced, reduce};
pub use tree::{AnyVersion, Record, Span, Tree, WIDTH_1, WIDTH_2, element, kind, sub};
