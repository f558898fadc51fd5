//! Draws speed against size: `picture RESULTS.csv PICTURE.svg`.

use std::process::ExitCode;

fn main() -> ExitCode {
    let arguments: Vec<String> = std::env::args().skip(1).collect();
    let [results, picture] = &arguments[..] else {
        eprintln!("usage: picture RESULTS.csv PICTURE.svg");
        return ExitCode::from(2);
    };
    match draw(results, picture) {
        Ok(()) => ExitCode::SUCCESS,
        Err(error) => {
            eprintln!("picture: {error}");
            ExitCode::FAILURE
        }
    }
}

fn draw(results: &str, picture: &str) -> std::io::Result<()> {
    let csv = std::fs::read_to_string(results)?;
    let svg = second::bench::picture::picture(&csv)
        .ok_or_else(|| std::io::Error::other(format!("{results} is not a results.csv")))?;
    std::fs::write(picture, svg)
}
