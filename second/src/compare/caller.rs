//! The library behind a pipe: a program that is linked with it makes the calls
//! it is sent, for where this program cannot be linked with it itself. The
//! other end, with the protocol in full, is `tests/caller/caller.c`.
//!
//! Whatever is not as the protocol has it is an error, and after an error
//! nothing more can be asked.

use super::call::{Call, Values};
use super::outcome::{lend, Element, Outcome};
use crate::numbers::{Width, WIDTH_32};
use std::io::{self, BufReader, Read, Write};
use std::ops::Range;
use std::process::{Child, ChildStdin, ChildStdout, Command, Stdio};

/// How many bytes are read at a time, so that most answers take one reading.
const READ_AT_A_TIME: usize = 1 << 16;

/// The bytes of the heads, and of a function's name in the first.
const NAME: usize = 24;
const HEAD_OF_CALL: usize = 88;
const HEAD_OF_ANSWER: usize = 16;

/// The program, running.
pub struct Caller {
    program: Child,
    wire: Wire<ChildStdin, BufReader<ChildStdout>>,
}

impl Caller {
    /// Starts the program: the first word is its name.
    pub fn start(command: &[String]) -> io::Result<Caller> {
        let (name, words) = command.split_first().ok_or_else(|| wrong("no program is named"))?;
        let mut starting = Command::new(name);
        starting.args(words).stdin(Stdio::piped()).stdout(Stdio::piped());
        let mut program = starting.spawn()?;
        let calls = program.stdin.take().expect("a pipe");
        let answers = program.stdout.take().expect("a pipe");
        let answers = BufReader::with_capacity(READ_AT_A_TIME, answers);
        Ok(Caller { program, wire: Wire::new(calls, answers) })
    }

    /// What the library makes of a call.
    pub fn call(&mut self, call: &Call) -> io::Result<Outcome> {
        self.wire.call(call)
    }

    /// Ends the program, which must have nothing left to say and end well.
    pub fn end(mut self) -> io::Result<()> {
        self.wire.end()?;
        match self.program.wait()? {
            status if status.success() => Ok(()),
            status => Err(wrong(&format!("it ended with {status}"))),
        }
    }
}

/// Calls one way, and answers the other.
pub struct Wire<W, R> {
    /// Nothing once it is closed.
    calls: Option<W>,
    answers: R,
    /// The bytes of a call or of a buffer, kept from one call to the next.
    bytes: Vec<u8>,
}

impl<W: Write, R: Read> Wire<W, R> {
    pub fn new(calls: W, answers: R) -> Wire<W, R> {
        Wire { calls: Some(calls), answers, bytes: Vec::new() }
    }

    /// What the library at the other end makes of a call.
    pub fn call(&mut self, call: &Call) -> io::Result<Outcome> {
        match *call {
            Call::Pack { values, room, .. } => match values {
                Values::Singles(values) => self.lending::<u8, _>(call, values, room),
                Values::Doubles(values) => self.lending::<u8, _>(call, values, room),
            },
            Call::Length { values, .. } => match values {
                Values::Singles(values) => self.bare(call, values),
                Values::Doubles(values) => self.bare(call, values),
            },
            Call::Check { stream, .. } | Call::TestSummary { stream, .. } => {
                self.bare(call, stream)
            }
            Call::Unpack { width, stream, room, .. } => self.of_width(call, width, stream, room),
            Call::Probe { width, stream, .. } => self.of_width(call, width, stream, 1),
            Call::AddSummary { stream, room, .. } => self.lending::<u8, _>(call, stream, room),
            Call::ChunksFrom { stream, room, .. } => self.lending::<u32, _>(call, stream, room),
            Call::ToleranceCode { width, .. } | Call::ToleranceRestored { width, .. } => {
                self.of_width(call, width, &[], 1)
            }
            Call::Bound { .. } | Call::LosslessCode { .. } | Call::LosslessRestored { .. } => {
                self.bare::<u8>(call, &[])
            }
        }
    }

    /// Closes the calls. Whatever still comes is an answer too many.
    pub fn end(&mut self) -> io::Result<()> {
        self.calls = None;
        match self.answers.read(&mut [0])? {
            0 => Ok(()),
            _ => Err(wrong("something follows its last answer")),
        }
    }

    fn of_width(
        &mut self,
        call: &Call,
        width: Width,
        input: &[u8],
        room: usize,
    ) -> io::Result<Outcome> {
        if width == WIDTH_32 {
            self.lending::<u32, _>(call, input, room)
        } else {
            self.lending::<u64, _>(call, input, room)
        }
    }

    fn lending<E: Sent, I: Sent>(
        &mut self,
        call: &Call,
        input: &[I],
        room: usize,
    ) -> io::Result<Outcome> {
        let mut error = None;
        let outcome = lend::<E>(room, |buffer, room| {
            let result = self.exchange(call, input, buffer, room);
            result.unwrap_or_else(|met| {
                error = Some(met);
                0
            })
        });
        error.map_or(Ok(outcome), Err)
    }

    fn bare<I: Sent>(&mut self, call: &Call, input: &[I]) -> io::Result<Outcome> {
        self.exchange::<u8, I>(call, input, &mut [], 0..0).map(Outcome::bare)
    }

    /// Sends a call and takes its answer: the result, and what the buffer has
    /// become.
    fn exchange<E: Sent, I: Sent>(
        &mut self,
        call: &Call,
        input: &[I],
        buffer: &mut [E],
        room: Range<usize>,
    ) -> io::Result<u64> {
        self.bytes.clear();
        self.add_head(call, input.len(), buffer.len(), room);
        I::add(&mut self.bytes, input);
        E::add(&mut self.bytes, buffer);
        let calls = self.calls.as_mut().ok_or_else(|| wrong("it was told to end"))?;
        calls.write_all(&self.bytes)?;
        calls.flush()?;
        self.take_answer(buffer)
    }

    fn add_head(&mut self, call: &Call, count: usize, buffer: usize, room: Range<usize>) {
        let Numbers { level, mode, k, group, width, halves, number } = Numbers::of(call);
        let mut name = [0; NAME];
        name[..call.operation().len()].copy_from_slice(call.operation().as_bytes());
        self.bytes.extend(name);
        u32::add(&mut self.bytes, &[level, mode, k as u32, group, width, halves]);
        let sizes = [count, room.start, room.len(), buffer - room.end].map(|size| size as u64);
        u64::add(&mut self.bytes, &[number]);
        u64::add(&mut self.bytes, &sizes);
        assert_eq!(self.bytes.len(), HEAD_OF_CALL);
    }

    fn take_answer<E: Sent>(&mut self, buffer: &mut [E]) -> io::Result<u64> {
        let mut head = [0; HEAD_OF_ANSWER];
        self.answers.read_exact(&mut head)?;
        let mut numbers = [0; 2];
        u64::take(&head, &mut numbers);
        let [result, bytes] = numbers;
        let whole = size_of_val(buffer);
        if bytes == 0 {
            return Ok(result); // all of the buffer is as it was
        }
        if bytes != whole as u64 {
            return Err(wrong(&format!("{bytes} bytes of a buffer of {whole} came back")));
        }
        self.bytes.resize(whole, 0);
        self.answers.read_exact(&mut self.bytes)?;
        E::take(&self.bytes, buffer);
        Ok(result)
    }
}

/// The numbers of a call; 0 where its function does not take one.
#[derive(Default)]
struct Numbers {
    level: u32,
    mode: u32,
    k: i32,
    group: u32,
    width: u32,
    halves: u32,
    number: u64,
}

impl Numbers {
    fn of(call: &Call) -> Numbers {
        let none = Numbers::default();
        match *call {
            Call::Pack { level, mode, k, group, .. }
            | Call::Length { level, mode, k, group, .. } => {
                Numbers { level, mode, k, group, ..none }
            }
            Call::Unpack { level, .. }
            | Call::Check { level, .. }
            | Call::AddSummary { level, .. }
            | Call::TestSummary { level, .. } => Numbers { level, ..none },
            Call::Probe { level, index, .. } => Numbers { level, number: index, ..none },
            Call::ChunksFrom { level, x, .. } => Numbers { level, number: x, ..none },
            Call::Bound { width, tolerance } => Numbers { width, number: tolerance, ..none },
            Call::LosslessCode { pattern, .. } => Numbers { number: pattern, ..none },
            Call::LosslessRestored { code, .. } => Numbers { number: code, ..none },
            Call::ToleranceCode { halves, k, pattern, .. } => {
                Numbers { halves, k, number: pattern, ..none }
            }
            Call::ToleranceRestored { k, code, .. } => Numbers { k, number: code, ..none },
        }
    }
}

/// An element as it is sent, its lowest byte first.
trait Sent: Element {
    /// Puts elements behind what is there.
    fn add(bytes: &mut Vec<u8>, elements: &[Self]);
    /// Takes as many elements as there are from their bytes.
    fn take(bytes: &[u8], elements: &mut [Self]);
}

macro_rules! sent {
    ($word:ident) => {
        impl Sent for $word {
            fn add(bytes: &mut Vec<u8>, elements: &[$word]) {
                let from = bytes.len();
                bytes.resize(from + size_of_val(elements), 0);
                let words = bytes[from..].chunks_exact_mut(size_of::<$word>());
                for (word, element) in words.zip(elements) {
                    word.copy_from_slice(&element.to_le_bytes());
                }
            }

            fn take(bytes: &[u8], elements: &mut [$word]) {
                let words = bytes.chunks_exact(size_of::<$word>());
                for (element, word) in elements.iter_mut().zip(words) {
                    *element = $word::from_le_bytes(word.try_into().expect("so many bytes"));
                }
            }
        }
    };
}

sent!(u8);
sent!(u32);
sent!(u64);

fn wrong(what: &str) -> io::Error {
    io::Error::new(io::ErrorKind::InvalidData, what)
}
