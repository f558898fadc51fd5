//! The second program: packed float fields written again, from the scope
//! document and change requests alone, to judge another
//! implementation.
//!
//! * [`numbers`]: the lossless, tolerance and difference codes, and bound.
//! * [`stream`]: pack, length, unpack, check and probe, as simply as possible.
//! * [`summary`]: adding a summary, testing it and listing chunks by it.
//! * [`listing`]: the text the listing program prints.
//! * [`plain`]: pack, length, check, unpack and probe once more, tuned for
//!   speed. It shares nothing with the others but the types of this page.
//!   `plain.c` is the same in C, for the program `bench` alone.
//! * [`compare`]: puts many calls to the reference and to another library.
//! * [`bench`]: measures another library beside the tuned version.

#![forbid(unsafe_code)]

pub mod bench;
pub mod compare;
pub mod listing;
pub mod numbers;
pub mod plain;
pub mod stream;
pub mod summary;

/// A refusal: its number in the refusal table, and its detail.
#[derive(Clone, Copy, Debug, PartialEq, Eq)]
pub struct Refusal {
    pub number: u32,
    pub detail: u32,
}

impl Refusal {
    /// A refusal for which the table states detail 0.
    pub const fn bare(number: u32) -> Refusal {
        Refusal { number, detail: 0 }
    }

    /// A refusal for which the table states a detail. Every detail of the
    /// table fits 32 bits: lengths are bounded by the value limit, the needed
    /// minor and an id are numbers of the stream, and of chunks there are at most
    /// 1,024, each of 32 groups.
    pub const fn with_detail(number: u32, detail: u64) -> Refusal {
        Refusal { number, detail: detail as u32 }
    }
}

/// What all operations but probe and bound answer: the bytes written, the length,
/// n or the chunks listed on success (the document's number 0), else the refusal.
pub type Answer = Result<u64, Refusal>;
