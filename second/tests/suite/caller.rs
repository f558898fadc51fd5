//! The pipe to a library: what is sent, what is taken, and that whatever is
//! not as the protocol has it is an error.

use second::compare::call::{Call, Values};
use second::compare::caller::{Caller, Wire};
use second::compare::outcome::{Lent, Outcome, MARGIN};
use second::numbers::{WIDTH_32, WIDTH_64};
use std::io;

const PROBE: Call = Call::Probe { width: WIDTH_32, level: 10, stream: &[7, 8], index: 5 };
const LENGTH: Call =
    Call::Length { level: 9, mode: 1, k: -3, group: 128, values: Values::Doubles(&[258]) };

/// The elements lent to a call that writes one pattern.
const LENT: usize = 1 + 2 * MARGIN;

fn head_of_answer(result: u64, bytes: u64) -> Vec<u8> {
    [result.to_le_bytes(), bytes.to_le_bytes()].concat()
}

/// What is sent of a call, and what its answer is taken for.
fn exchanged(call: &Call, answer: &[u8]) -> (Vec<u8>, io::Result<Outcome>) {
    let mut sent = Vec::new();
    let mut wire = Wire::new(&mut sent, answer);
    let outcome = wire.call(call).and_then(|outcome| wire.end().map(|()| outcome));
    drop(wire);
    (sent, outcome)
}

#[test]
fn a_call_is_sent_as_it_is_written_down() {
    let (sent, outcome) = exchanged(&LENGTH, &head_of_answer(77, 0));
    let mut wanted = [b"length64".to_vec(), vec![0; 16]].concat();
    wanted.extend([9u32, 1, 3u32.wrapping_neg(), 128, 0, 0].map(u32::to_le_bytes).concat());
    wanted.extend([0u64, 1, 0, 0, 0, 258].map(u64::to_le_bytes).concat());
    assert_eq!(sent, wanted);
    assert_eq!(outcome.unwrap(), Outcome::bare(77));
}

#[test]
fn the_rule_for_halves_is_sent_behind_the_width() {
    let call = Call::ToleranceCode { width: WIDTH_64, halves: 258, k: -3, pattern: 5 };
    let (sent, _) = exchanged(&call, &head_of_answer(2 << 32, 0));
    assert_eq!(sent[..24], [&b"tolerance_code64"[..], &[0; 8]].concat());
    assert_eq!(
        sent[24..48],
        [0u32, 0, 3u32.wrapping_neg(), 0, 0, 258].map(u32::to_le_bytes).concat()
    );
    assert_eq!(sent[48..88], [5u64, 0, 64, 1, 64].map(u64::to_le_bytes).concat());
}

#[test]
fn a_buffer_is_sent_whole_and_taken_whole() {
    let mut after: Vec<u32> = (0..LENT as u32).collect();
    let bytes: Vec<u8> = after.iter().flat_map(|element| element.to_le_bytes()).collect();
    let answer = [head_of_answer(1, bytes.len() as u64), bytes].concat();
    let (sent, outcome) = exchanged(&PROBE, &answer);
    assert_eq!(sent.len(), 88 + 2 + 4 * LENT);
    assert_eq!(sent[48..88], [5u64, 2, 64, 1, 64].map(u64::to_le_bytes).concat());
    assert_eq!(outcome.unwrap(), Outcome { answer: 1, lent: Lent::Singles(after.clone()) });

    // Where nothing has changed, the buffer is as it was sent.
    let (sent, outcome) = exchanged(&PROBE, &head_of_answer(11 << 32, 0));
    for (element, bytes) in after.iter_mut().zip(sent[90..].chunks_exact(4)) {
        *element = u32::from_le_bytes(bytes.try_into().unwrap());
    }
    assert_eq!(outcome.unwrap(), Outcome { answer: 11 << 32, lent: Lent::Singles(after) });
}

#[test]
fn chunk_numbers_have_32_bits_at_both_widths() {
    let after: Vec<u32> = (0..3 + 2 * MARGIN as u32).collect();
    let bytes: Vec<u8> = after.iter().flat_map(|element| element.to_le_bytes()).collect();
    let answer = [head_of_answer(2, bytes.len() as u64), bytes].concat();
    for (width, name) in [(WIDTH_32, b"chunks_from32"), (WIDTH_64, b"chunks_from64")] {
        let call = Call::ChunksFrom { width, level: 12, x: 1 << 31, stream: &[7; 5], room: 3 };
        let (sent, outcome) = exchanged(&call, &answer);
        assert_eq!(sent[..13], name[..]);
        assert_eq!(sent[24..28], 12u32.to_le_bytes());
        assert_eq!(sent[48..88], [1u64 << 31, 5, 64, 3, 64].map(u64::to_le_bytes).concat());
        assert_eq!(outcome.unwrap(), Outcome { answer: 2, lent: Lent::Singles(after.clone()) });
    }
}

#[test]
fn an_answer_of_another_length_is_an_error() {
    let whole = 4 * LENT;
    let answer = |stated: usize, there: usize| {
        exchanged(&PROBE, &[head_of_answer(0, stated as u64), vec![1; there]].concat()).1
    };
    assert!(answer(whole, whole).is_ok());
    assert!(answer(whole, whole - 1).is_err());
    assert!(answer(whole, whole + 1).is_err());
    assert!(answer(whole - 1, whole - 1).is_err());
    assert!(answer(whole + 1, whole + 1).is_err());
    assert!(answer(0, 1).is_err());
    for cut in 0..16 {
        assert!(exchanged(&PROBE, &head_of_answer(0, 0)[..cut]).1.is_err());
    }
    // Nothing is lent to this one.
    assert!(exchanged(&LENGTH, &[head_of_answer(0, 1), vec![1]].concat()).1.is_err());
}

/// What becomes of a program that is asked once and then told to end.
fn by_shell(script: &str) -> io::Result<Outcome> {
    let command = ["sh", "-c", script].map(str::to_string);
    let mut caller = Caller::start(&command)?;
    let outcome = caller.call(&LENGTH)?;
    caller.end().map(|()| outcome)
}

#[test]
fn a_program_has_to_answer_and_to_end_well() {
    let answer = "head -c 96 >/dev/null; head -c 16 /dev/zero;";
    assert_eq!(by_shell(&format!("{answer} cat")).unwrap(), Outcome::bare(0));
    assert!(by_shell(&format!("{answer} cat; exit 3")).is_err());
    assert!(by_shell(&format!("{answer} echo; cat")).is_err());
    assert!(by_shell("head -c 96 >/dev/null").is_err());
    assert!(by_shell("exit 0").is_err());
    assert!(Caller::start(&["there is no such program".to_string()]).is_err());
    assert!(Caller::start(&[]).is_err());
}
