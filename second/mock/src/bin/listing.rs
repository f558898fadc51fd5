//! A stand-in for the listing program: the reference's text, with one fault planted
//! if the environment variable FAULT names one of a listing.

#[allow(dead_code)] // those of the library are planted there
#[path = "../faults.rs"]
mod faults;

use faults::{planted, Fault};
use second::listing::listing;
use std::io::{self, Read};

fn main() -> io::Result<()> {
    let mut input = Vec::new();
    io::stdin().read_to_end(&mut input)?;
    print!("{}", with_fault(&input, listing(&input)));
    Ok(())
}

fn number(stream: &[u8], order: usize) -> u32 {
    let bytes = stream.get(4 * order..4 * order + 4);
    bytes.map_or(0, |b| u32::from_le_bytes([b[0], b[1], b[2], b[3]]))
}

/// The text that a planted fault makes of the right one.
fn with_fault(stream: &[u8], text: String) -> String {
    let needs_14 = stream.len() >= 48 && number(stream, 0) == 1 && number(stream, 2) == 14;
    if planted(Fault::listing_at_level_13) && needs_14 && text.starts_with("refused") {
        return "refused 7 detail 14\n".to_string();
    }
    if !text.starts_with("format") || number(stream, 4) < 256 {
        return text;
    }
    if planted(Fault::listing_at_level_12) {
        return "refused 7 detail 13\n".to_string();
    }
    if planted(Fault::listing_mode_without_256) {
        let mode = number(stream, 4);
        return text.replace(&format!("mode {mode}"), &format!("mode {}", mode - 256));
    }
    if planted(Fault::listing_groups_by_32) {
        let lines = text.lines().map(|line| counted_by_32(stream, line) + "\n");
        return lines.collect();
    }
    text
}

/// The line with the groups of a chunk counted as those of 32.
fn counted_by_32(stream: &[u8], line: &str) -> String {
    let words: Vec<&str> = line.split(' ').collect();
    let ["chunk", chunk, .., "groups", groups] = words[..] else {
        return line.to_string();
    };
    let chunk: u32 = chunk.parse().unwrap_or(0);
    let values = (number(stream, 6) - 1024 * chunk).min(1024);
    let rest = line.strip_suffix(groups).unwrap_or(line);
    format!("{rest}{}", values.div_ceil(32))
}
