//! The seeded generator is that of the comparison harness.

pub use second::compare::random::*;
