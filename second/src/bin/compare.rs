//! Compares the library with the reference: the linked one, or, for where it
//! cannot be linked, the one behind a pipe.
//!
//! `compare [--quick | --long] [--seed N] [--trace] [--caller COMMAND...]`;
//! COMMAND starts the program of `tests/caller/`, by an emulator where that is
//! needed, and is the rest of the line. Exit status 0 when no difference was
//! found, 1 when one was or the program at the other end failed, 2 for
//! arguments it does not know.

#![deny(unsafe_code)]

#[cfg(feature = "linked")]
#[allow(unsafe_code)]
#[path = "../ffi.rs"]
mod ffi;
#[cfg(feature = "linked")]
#[path = "../linked.rs"]
mod linked;

use second::compare::call::Call;
use second::compare::caller::Caller;
use second::compare::judge::Library;
use second::compare::{run, Extent, Options};
use std::cell::RefCell;
use std::io;
use std::process::{exit, ExitCode};

const USAGE: &str = "usage: compare [--quick | --long] [--seed N] [--trace] [--caller COMMAND...]";

fn main() -> ExitCode {
    let Some((options, caller)) = options_of(std::env::args().skip(1)) else {
        eprintln!("{USAGE}");
        return ExitCode::from(2);
    };
    let passed = match (caller, linked_library()) {
        (Some(command), _) => compare_behind_pipe(&options, &command),
        (None, Some(library)) => compare(&options, library),
        (None, None) => {
            eprintln!("compare: no library is linked with this program: name one by --caller");
            return ExitCode::from(2);
        }
    };
    if passed {
        ExitCode::SUCCESS
    } else {
        ExitCode::FAILURE
    }
}

/// The options, and the command that starts the program behind a pipe.
fn options_of(
    mut arguments: impl Iterator<Item = String>,
) -> Option<(Options, Option<Vec<String>>)> {
    let mut options = Options { seed: 1, extent: Extent::Usual, trace: false };
    while let Some(argument) = arguments.next() {
        match argument.as_str() {
            "--quick" => options.extent = Extent::Quick,
            "--long" => options.extent = Extent::Long,
            "--seed" => options.seed = arguments.next()?.parse().ok()?,
            "--trace" => options.trace = true,
            "--caller" => {
                let command: Vec<String> = arguments.collect();
                return (!command.is_empty()).then_some((options, Some(command)));
            }
            _ => return None,
        }
    }
    Some((options, None))
}

#[cfg(feature = "linked")]
fn linked_library() -> Option<Library<'static>> {
    Some(&linked::by_library)
}

#[cfg(not(feature = "linked"))]
fn linked_library() -> Option<Library<'static>> {
    None
}

fn compare(options: &Options, library: Library) -> bool {
    println!("seed {}, {:?} run", options.seed, options.extent);
    run(options, library, &mut io::stdout())
}

/// With the library behind a pipe, which must not fail, nor say more than it
/// was asked.
fn compare_behind_pipe(options: &Options, command: &[String]) -> bool {
    let caller = RefCell::new(Caller::start(command).unwrap_or_else(|error| stop(&error)));
    let by_caller =
        |call: &Call| caller.borrow_mut().call(call).unwrap_or_else(|error| stop(&error));
    let passed = compare(options, &by_caller);
    caller.into_inner().end().unwrap_or_else(|error| stop(&error));
    passed
}

/// Without the program at the other end nothing is compared any more, so no
/// count is printed, or none as the last line.
fn stop(error: &io::Error) -> ! {
    eprintln!("compare: the program behind the pipe failed: {error}");
    exit(1);
}
