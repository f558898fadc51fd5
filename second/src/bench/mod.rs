//! The benchmark: a linked library beside the tuned version, plain C, memcpy
//! and other compressors.
//!
//! * [`fields`]: what is packed.
//! * [`codec`]: the operations of a version of the format; [`others`]:
//!   compressors of other formats, and what they keep.
//! * [`timing`]: rounds in which every contender runs once.
//! * [`rows`]: one field at one width and mode; [`growth`]: time by length.
//! * [`report`]: results as CSV and as Markdown; [`picture`]: as SVG.

pub mod codec;
pub mod fields;
pub mod growth;
pub mod others;
pub mod picture;
pub mod report;
pub mod rows;
pub mod timing;
