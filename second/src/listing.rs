//! The listing, as a function from the bytes on standard input to the text
//! printed. Every line ends with a newline.

use crate::stream::{self, Whole};

const MOST_BYTES: usize = 65_536;

/// What the listing program prints for this input.
pub fn listing(input: &[u8]) -> String {
    if input.len() > MOST_BYTES {
        return "too long\n".to_string();
    }
    match stream::checked(stream::HIGHEST_LEVEL, input) {
        Ok(whole) => described(&whole),
        Err(refusal) => format!("refused {} detail {}\n", refusal.number, refusal.detail),
    }
}

fn described(whole: &Whole) -> String {
    let header = &whole.header;
    // The major number is 1 in every stream that passed the check.
    let mut text = format!("format 1.{} needs 1.{}\n", header.written, header.needed);
    let setting = header.setting;
    text += &format!(
        "width {} mode {} bound {}\n",
        setting.width().bits(),
        setting.mode_number(),
        setting.k()
    );
    text += &format!("values {} chunks {} sides {}\n", header.n, header.c, header.sides);
    for (chunk, stretch) in (0..).zip(&whole.tables.stretches) {
        text += &format!(
            "chunk {} at {} bytes {} groups {}\n",
            chunk,
            stretch.start,
            stretch.end - stretch.start,
            header.groups_in_chunk(chunk)
        );
    }
    text
}
