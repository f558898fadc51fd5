//! Compares the listing program with the reference, each input by a run of
//! the program.
//!
//! `listings [--quick | --long] [--seed N] COMMAND...`; COMMAND starts the
//! program, by an emulator where that is needed, and is the rest of the line.
//! Exit status 0 when no text differed, 1 when one did, 2 for arguments it does
//! not know.

use second::compare::{listings, Extent};
use second::listing::listing;
use std::io::{self, Write};
use std::process::{Command, ExitCode, Stdio};

const USAGE: &str = "usage: listings [--quick | --long] [--seed N] COMMAND...";

struct Options {
    command: Vec<String>,
    seed: u64,
    extent: Extent,
}

fn main() -> ExitCode {
    let Some(options) = options_of(std::env::args().skip(1)) else {
        eprintln!("{USAGE}");
        return ExitCode::from(2);
    };
    println!("seed {}, {:?} run of {}", options.seed, options.extent, options.command.join(" "));
    let inputs = listings::inputs(options.seed, options.extent);
    let failed = inputs.iter().filter(|input| !agrees(&options.command, input)).count();
    println!("{} passed, {failed} failed", inputs.len() - failed);
    if failed == 0 {
        ExitCode::SUCCESS
    } else {
        ExitCode::FAILURE
    }
}

fn options_of(mut arguments: impl Iterator<Item = String>) -> Option<Options> {
    let mut options = Options { command: Vec::new(), seed: 1, extent: Extent::Usual };
    while let Some(argument) = arguments.next() {
        match argument.as_str() {
            "--quick" => options.extent = Extent::Quick,
            "--long" => options.extent = Extent::Long,
            "--seed" => options.seed = arguments.next()?.parse().ok()?,
            option if option.starts_with('-') => return None,
            _ => {
                options.command.push(argument);
                options.command.extend(arguments);
                return Some(options);
            }
        }
    }
    None
}

/// Whether the program prints what the reference does; says where it does not.
fn agrees(command: &[String], input: &[u8]) -> bool {
    let wanted = listing(input);
    match printed(command, input) {
        Ok(text) if text == wanted.as_bytes() => true,
        Ok(text) => {
            println!("difference at an input of {} bytes: {}", input.len(), hex(input));
            println!("wanted:\n{wanted}printed:\n{}", String::from_utf8_lossy(&text));
            false
        }
        Err(error) => {
            println!("{} could not be run: {error}", command.join(" "));
            false
        }
    }
}

fn printed(command: &[String], input: &[u8]) -> io::Result<Vec<u8>> {
    let mut starting = Command::new(&command[0]);
    starting.args(&command[1..]).stdin(Stdio::piped()).stdout(Stdio::piped());
    let mut child = starting.spawn()?;
    // The program stops reading one byte past the longest input, so the rest of a longer one may not be taken.
    let written = child.stdin.take().expect("a pipe").write_all(input);
    if let Err(error) = written {
        if error.kind() != io::ErrorKind::BrokenPipe {
            return Err(error);
        }
    }
    Ok(child.wait_with_output()?.stdout)
}

fn hex(bytes: &[u8]) -> String {
    bytes.iter().take(400).map(|byte| format!("{byte:02X}")).collect()
}
