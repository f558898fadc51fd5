//! The judge: puts every call to the reference and to the library, counts, and
//! prints each section's first difference of each operation.

use super::call::{Call, OPERATIONS};
use super::outcome::Outcome;
use super::reference::by_reference;
use super::shrink;
use std::collections::{BTreeMap, BTreeSet};
use std::io::Write;

/// The library under comparison: what it makes of a call.
pub type Library<'a> = &'a dyn Fn(&Call) -> Outcome;

/// The operations that refuse 10 because of a group.
const READERS: [&str; 9] = [
    "check",
    "unpack32",
    "unpack64",
    "probe32",
    "probe64",
    "add_summary",
    "test_summary",
    "chunks_from32",
    "chunks_from64",
];

/// How often each answer number was met.
type Met = BTreeMap<u32, u64>;

pub struct Judge<'a> {
    library: Library<'a>,
    out: &'a mut dyn Write,
    seed: u64,
    trace: bool,
    section: Section,
    met: BTreeMap<&'static str, Met>,
    cases: u64,
    failed: u64,
}

#[derive(Default)]
struct Section {
    name: &'static str,
    cases: u64,
    failed: u64,
    shown: BTreeSet<&'static str>,
    /// The details with which each operation refused 10.
    details_of_10: BTreeMap<&'static str, BTreeSet<u32>>,
}

impl<'a> Judge<'a> {
    pub fn new(library: Library<'a>, out: &'a mut dyn Write, seed: u64, trace: bool) -> Judge<'a> {
        Judge {
            library,
            out,
            seed,
            trace,
            section: Section::default(),
            met: BTreeMap::new(),
            cases: 0,
            failed: 0,
        }
    }

    /// Compares one call: answer, and every element of the lent output. The
    /// reference's answer is given back.
    pub fn compare(&mut self, call: Call) -> u64 {
        self.outcome(&call).answer
    }

    /// Compares a call that was made up to be answered with this number. That
    /// the reference answers otherwise is a failure too.
    pub fn compare_meant(&mut self, call: Call, number: u32) {
        let answer = self.compare(call);
        if call.number_of(answer) != number {
            self.fail(&call, answer, &format!("answered {number}"));
        }
    }

    /// Compares a call whose answer, and the front of what it writes, the
    /// document states.
    pub fn compare_known(&mut self, call: Call, answer: u64, written: &[u64]) {
        let outcome = self.outcome(&call);
        if outcome.answer != answer || !outcome.lent.starts_with(written) {
            let stated = call.answer_text(answer);
            self.fail(&call, outcome.answer, &format!("{stated} and {written:x?}"));
        }
    }

    /// Puts one call to both, counts it, and gives the reference's outcome.
    fn outcome(&mut self, call: &Call) -> Outcome {
        let reference = by_reference(call);
        if self.trace {
            self.say(&format!("{} {call}", call.operation()));
        }
        let library = (self.library)(call);
        let number = call.number_of(reference.answer);
        let met = self.met.entry(call.operation()).or_default();
        *met.entry(number).or_default() += 1;
        if number == 10 {
            let details = self.section.details_of_10.entry(call.operation()).or_default();
            details.insert(reference.answer as u32);
        }
        self.section.cases += 1;
        if reference != library {
            self.section.failed += 1;
            if self.section.shown.insert(call.operation()) {
                self.show_difference(call);
            }
        }
        reference
    }

    /// Says how many different details each reader gave with refusal 10 in this
    /// section. Fewer than these are a failure.
    pub fn require_details_of_10(&mut self, least: usize) {
        let details = &self.section.details_of_10;
        let counts = READERS.map(|reader| (reader, details.get(reader).map_or(0, BTreeSet::len)));
        let texts = counts.map(|(reader, count)| format!("{reader} {count}"));
        self.say(&format!("different details of 10: {}", texts.join(", ")));
        for (reader, _) in counts.iter().filter(|(_, count)| *count < least) {
            self.section.failed += 1;
            self.say(&format!("FAILURE: {reader} gave fewer than {least} details with 10"));
        }
    }

    /// The reference is not as it was meant or is known to be.
    fn fail(&mut self, call: &Call, answer: u64, meant: &str) {
        self.section.failed += 1;
        let (operation, answer) = (call.operation(), call.answer_text(answer));
        self.say(&format!(
            "\nFAILURE of the reference or the harness: {operation} answers {answer}, \
             where it should be {meant}\ninput: {call}\n"
        ));
    }

    /// Says that there is a difference, and then shows the shortest input
    /// found that still differs.
    fn show_difference(&mut self, call: &Call) {
        let (name, case, seed) = (self.section.name, self.section.cases, self.seed);
        self.say(&format!("\nDIFFERENCE in {name}, case {case}, seed {seed}"));
        let library = self.library;
        let differs = |call: &Call| by_reference(call) != library(call);
        shrink::with_shortest(call, &differs, |call| {
            self.say(&difference_text(call, &by_reference(call), &library(call)));
        });
    }

    fn say(&mut self, text: &str) {
        // Nothing sensible is left to do when the output is gone.
        let _ = writeln!(self.out, "{text}");
        let _ = self.out.flush();
    }

    /// Begins a section. Its name is printed when it ends, with its counts; a
    /// run that breaks off in between shows the sections before it.
    pub fn begin(&mut self, name: &'static str) {
        self.section = Section { name, ..Section::default() };
    }

    pub fn end(&mut self) {
        let Section { name, cases, failed, .. } = self.section;
        self.say(&format!("{name:32} {cases:9} cases {failed:7} different"));
        self.cases += cases;
        self.failed += failed;
    }

    pub fn nothing_failed(&self) -> bool {
        self.failed == 0
    }

    /// Prints how often each operation was answered with each number, and the
    /// totals as the last line. Answers whether nothing failed.
    pub fn finish(mut self) -> bool {
        self.say("\nanswers of the reference, number x cases:");
        for (operation, numbers) in OPERATIONS {
            let met = self.met.remove(operation).unwrap_or_default();
            self.say(&met_text(operation, &met));
            for number in numbers.iter().filter(|number| !met.contains_key(number)) {
                self.failed += 1;
                self.say(&format!("FAILURE: {operation} never answered {number}"));
            }
        }
        self.say("a case is one call, compared in answer and in every element lent to it");
        let (passed, failed) = (self.cases.saturating_sub(self.failed), self.failed);
        self.say(&format!("{passed} passed, {failed} failed"));
        failed == 0
    }
}

fn difference_text(call: &Call, reference: &Outcome, library: &Outcome) -> String {
    format!(
        "operation: {}\nreference: {}\nlibrary:   {}\n{}\ninput: {call}\n",
        call.operation(),
        call.answer_text(reference.answer),
        call.answer_text(library.answer),
        reference.lent.difference_text(&library.lent)
    )
}

fn met_text(operation: &str, met: &Met) -> String {
    let met = met.iter().map(|(number, cases)| format!("{number} x {cases}"));
    format!("{operation:21} {}", met.collect::<Vec<_>>().join(", "))
}
