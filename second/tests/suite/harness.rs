//! The comparison harness, tried on libraries made of the tuned version and
//! the reference. With a really linked one it is tried in `mock`; plain C is
//! put to it by the benchmark, which alone is linked with that.

use second::bench::codec::Tuned;
use second::compare::call::{Call, Values};
use second::compare::judge::{Judge, Library};
use second::compare::operations::by_operations;
use second::compare::outcome::{Lent, Outcome, MARGIN};
use second::compare::random::XorShift;
use second::compare::reference::by_reference;
use second::compare::{run, Extent, Options};
use second::numbers::WIDTH_64;
use second::plain;
use second::summary::add_summary;

/// The tuned version where it has the operation, else the reference.
fn by_tuned(call: &Call) -> Outcome {
    by_operations::<Tuned>(call).unwrap_or_else(|| by_reference(call))
}

#[test]
fn the_tuned_version_passes_a_quick_run() {
    let options = Options { seed: 2, extent: Extent::Quick, trace: false };
    let mut text = Vec::new();
    let passed = run(&options, &by_tuned, &mut text);
    let text = String::from_utf8(text).unwrap();
    assert!(passed, "{text}");
    let last = text.lines().last().unwrap();
    let cases: u64 = last.strip_suffix(" passed, 0 failed").unwrap().parse().unwrap();
    assert!(cases >= 100_000, "{last}");
}

/// What the judge prints of one call, and that it does not pass.
fn report_of(library: Library, call: Call) -> String {
    let mut text = Vec::new();
    let mut judge = Judge::new(library, &mut text, 7, false);
    judge.begin("one call");
    judge.compare(call);
    judge.end();
    assert!(!judge.finish());
    String::from_utf8(text).unwrap()
}

/// A library that answers wrongly for lists in which 7 comes after 5.
fn wrong_for_5_then_7(call: &Call) -> Outcome {
    let mut outcome = by_reference(call);
    if let Call::Length { values: Values::Singles(values), .. } = *call {
        let five = values.iter().position(|&value| value == 5);
        if five.is_some_and(|five| values[five..].contains(&7)) {
            outcome.answer += 1;
        }
    }
    outcome
}

#[test]
fn a_differing_list_is_cut_short() {
    let mut values: Vec<u32> = (100..1500).collect();
    values[300] = 5;
    values[1200] = 7;
    let values = Values::Singles(&values);
    let call = Call::Length { level: 8, mode: 0, k: 0, group: 32, values };
    let text = report_of(&wrong_for_5_then_7, call);
    assert!(text.contains("DIFFERENCE in one call, case 1, seed 7\n"), "{text}");
    assert!(text.contains("operation: length32\n"), "{text}");
    assert!(text.contains("values (2): 00000005 00000007\n"), "{text}");
    assert!(text.contains("\none call                                 1 cases       1 different\n"));
}

/// A library whose unpack writes 0 for a value of 9.
fn loses_9(call: &Call) -> Outcome {
    let mut outcome = by_reference(call);
    if let (Call::Unpack { .. }, Lent::Doubles(values)) = (call, &mut outcome.lent) {
        for value in values.iter_mut().filter(|value| **value == 9) {
            *value = 0;
        }
    }
    outcome
}

#[test]
fn a_differing_stream_is_packed_again_from_a_shorter_list() {
    let mut values: Vec<u64> = (1000..3000).collect();
    values[1700] = 9;
    let mut stream = vec![0; 20_000];
    let length = plain::pack(10, 0, 0, 32, &values, &mut stream).unwrap() as usize;
    let stream = &stream[..length];
    let call = Call::Unpack { width: WIDTH_64, level: 10, stream, room: 2003 };
    let text = report_of(&loses_9, call);
    assert!(text.contains("input: level 10 room 4 stream (54 bytes): 01000000"), "{text}");
    assert!(text.contains("first differs at element 0: "), "{text}");
}

/// A library that counts no chunk where one is listed and the last holds no more
/// than 9.
fn never_counts_9(call: &Call) -> Outcome {
    let mut outcome = by_reference(call);
    if let Call::ChunksFrom { stream, .. } = call {
        if outcome.answer == 1 && stream.ends_with(&9u64.to_le_bytes()) {
            outcome.answer = 0;
        }
    }
    outcome
}

#[test]
fn a_stream_packed_again_has_its_summary() {
    let mut values = [3u64; 1100];
    values[1050] = 9;
    let mut stream = [0; 700];
    let length = plain::pack(10, 0, 0, 32, &values, &mut stream).unwrap() as usize;
    let mut copy = [0; 800];
    let length = add_summary(10, &stream[..length], &mut copy).unwrap() as usize;
    let stream = &copy[..length];
    let call = Call::ChunksFrom { width: WIDTH_64, level: 10, x: 9, stream, room: 4 };
    let text = report_of(&never_counts_9, call);
    assert!(text.contains("reference: 0 with 1\nlibrary:   0 with 0\n"), "{text}");
    assert!(text.contains("input: level 10 x 9 room 4 stream (86 bytes): 01000000"), "{text}");
}

/// A library that writes right after the room.
fn writes_past_room(call: &Call) -> Outcome {
    let mut outcome = by_reference(call);
    if let (Call::Pack { room, .. }, Lent::Bytes(bytes)) = (call, &mut outcome.lent) {
        bytes[MARGIN + room] ^= 1;
    }
    outcome
}

#[test]
fn a_write_past_the_room_is_found() {
    let values = Values::Singles(&[]);
    let call = Call::Pack { level: 8, mode: 0, k: 0, group: 32, values, room: 48 };
    let text = report_of(&writes_past_room, call);
    assert!(text.contains("room 48, first differs at element 48: "), "{text}");
}

#[test]
fn too_few_details_of_10_fail() {
    // A stream of two groups, of which the first or the second is too wide.
    let numbers = [1, 8, 8, 32, 0, 0, 33, 1, 48, 52, 0, 54, 0u32].map(u32::to_le_bytes).concat();
    let failed = |least: usize| {
        let mut text = Vec::new();
        let mut judge = Judge::new(&by_tuned, &mut text, 7, false);
        judge.begin("two groups");
        for group in [[33, 0], [0, 33], [0, 33]] {
            let stream = [&numbers[..], &group].concat();
            judge.compare(Call::Check { level: 8, stream: &stream });
        }
        judge.require_details_of_10(least);
        judge.end();
        let text = String::from_utf8(text).unwrap();
        assert!(text.contains("different details of 10: check 2, unpack32 0,"), "{text}");
        text.matches("FAILURE").count()
    };
    assert_eq!([failed(0), failed(1), failed(2), failed(3)], [0, 8, 8, 9]);
}

#[test]
fn a_seed_repeats_and_its_uses_differ() {
    let first = |seed, usage| XorShift::seeded(seed, usage).next();
    assert_eq!(first(1, 1), first(1, 1));
    assert_ne!(first(1, 1), first(1, 2));
    assert_ne!(first(1, 1), first(2, 1));
    assert_ne!(first(0, 0), 0);
}
