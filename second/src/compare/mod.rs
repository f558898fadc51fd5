//! The comparison harness: puts many calls to the reference and to another
//! library, and compares answers and every element of the lent outputs.
//!
//! * [`call`]: one call with its whole input; [`outcome`]: what it leaves;
//!   [`operations`]: what an implementation offers, and makes of a call.
//! * [`caller`]: a library at the other end of a pipe.
//! * [`judge`]: compares and counts; `shrink`: shortens a differing input.
//! * [`random`]: the seeded generator of patterns and lists; [`walks`]: lists
//!   that suit mode 2.
//! * `summaries`: streams and their summaries.
//! * `known`, `rules`, `lists`, `orders`, `damage`, `tables`, `groups`,
//!   `places`, `differences`, `needs`, `adding`, `falsified`, `sizes`, `halves`: the
//!   sections, each a source of calls.
//! * [`listings`]: the inputs for the listing program, which is run apart.

pub mod call;
pub mod caller;
pub mod judge;
pub mod known;
pub mod listings;
pub mod operations;
pub mod outcome;
pub mod random;
pub mod reference;
pub mod walks;

mod adding;
mod damage;
mod differences;
mod falsified;
mod groups;
mod halves;
mod lists;
mod needs;
mod orders;
mod places;
mod readings;
mod rules;
mod shrink;
mod sizes;
mod streams;
mod summaries;
mod tables;

use judge::{Judge, Library};
use random::XorShift;
use std::io::Write;

/// How much is run.
#[derive(Clone, Copy, Debug, PartialEq, Eq)]
pub enum Extent {
    Quick,
    Usual,
    Long,
}

impl Extent {
    /// The rounds of a random section that has this many usually.
    fn rounds(self, usual: u64) -> u64 {
        match self {
            Extent::Quick => usual.div_ceil(10),
            Extent::Usual => usual,
            Extent::Long => usual * 10,
        }
    }
}

#[derive(Clone, Copy, Debug)]
pub struct Options {
    pub seed: u64,
    pub extent: Extent,
    /// Print every call before the library is asked, to see which one ends a
    /// run that breaks off.
    pub trace: bool,
}

type Section = (&'static str, fn(&mut Judge, &mut XorShift, Extent));

const SECTIONS: [Section; 30] = [
    ("known values", known::known_values),
    ("lossless codes", rules::lossless_codes),
    ("tolerance codes", rules::tolerance_codes),
    ("tolerance codes, any k", rules::tolerance_codes_any_k),
    ("bound", rules::bounds),
    ("settings of pack and length", lists::settings),
    ("lists of every length", lists::every_length),
    ("lists for every k", lists::every_k),
    ("random lists", lists::random_lists),
    ("streams read at every level", lists::every_level),
    ("the value limit", lists::value_limit),
    ("orders of pack and length", orders::packing),
    ("orders of the readers", orders::reading),
    ("header numbers altered", damage::header_numbers),
    ("several header numbers altered", damage::several_header_numbers),
    ("bytes altered", damage::bytes_altered),
    ("cuts and additions", damage::cuts_and_additions),
    ("chunk tables", tables::chunk_tables),
    ("side parts", tables::side_parts),
    ("groups", groups::groups),
    ("random damage", damage::random_damage),
    ("the first bad group", places::places),
    ("differences", differences::differences),
    ("needs and high ids", needs::needs),
    ("summaries", adding::added),
    ("false summaries", falsified::falsified),
    ("summaries in damaged streams", falsified::damaged),
    ("groups of 128", sizes::sizes),
    ("codes of halves", halves::codes),
    ("lists of halves", halves::lists),
];

const BRIEF_SECTIONS: [Section; 8] = [
    ("lists for every k", lists::every_k),
    ("random lists", lists::random_lists),
    ("random damage", damage::random_damage),
    ("the first bad group", places::places),
    ("differences", differences::differences),
    ("needs and high ids", needs::needs),
    ("groups of 128", sizes::sizes),
    ("lists of halves", halves::lists),
];

/// Runs every section and writes what was compared; answers whether nothing
/// failed.
pub fn run(options: &Options, library: Library, out: &mut dyn Write) -> bool {
    let mut judge = Judge::new(library, out, options.seed, options.trace);
    run_sections(&mut judge, options, &SECTIONS);
    judge.finish()
}

/// Puts some 310,000 calls with random lists and damaged streams to an
/// implementation of the operations, in a second or two; writes how it differs
/// from the reference, and answers whether it never does.
pub fn run_briefly(library: Library, out: &mut dyn Write) -> bool {
    let options = Options { seed: 1, extent: Extent::Quick, trace: false };
    let mut judge = Judge::new(library, out, options.seed, options.trace);
    run_sections(&mut judge, &options, &BRIEF_SECTIONS);
    judge.nothing_failed()
}

fn run_sections(judge: &mut Judge, options: &Options, sections: &[Section]) {
    for (usage, (name, section)) in (1..).zip(sections) {
        judge.begin(name);
        section(judge, &mut XorShift::seeded(options.seed, usage), options.extent);
        judge.end();
    }
}
