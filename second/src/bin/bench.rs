//! Measures the linked library beside the tuned version, plain C where it was
//! compiled, memcpy, and lz4, zstd, zfp and blosc where they are installed.
//!
//! `bench DIRECTORY [ROUNDS] [--field WIDTH FILE]...` writes results.csv and
//! growth.csv to the directory and prints tables in Markdown. A file holds raw
//! little-endian binary32 or binary64 values, and becomes one more field.

#![deny(unsafe_code)]

#[allow(unsafe_code, dead_code)] // the summaries and the number rules are not measured
#[macro_use]
#[path = "../ffi.rs"]
mod ffi;
#[allow(unsafe_code)]
#[path = "../foreign.rs"]
mod foreign;
#[cfg(plain_c)]
#[allow(unsafe_code)]
#[path = "../plain_c.rs"]
mod plain_c;

use ffi::Library;
use foreign::{installable, processor_time, Installable};
use second::bench::codec::{codec_of, tuned_codec, Codec, Value, SETTINGS};
use second::bench::fields::{Sample, FIELDS};
use second::bench::timing::{Watch, Who};
use second::bench::{growth, report, rows};
use std::path::PathBuf;
use std::process::ExitCode;

const USAGE: &str = "usage: bench DIRECTORY [ROUNDS] [--field WIDTH FILE]..., with 15 rounds or \
                     more, width 32 or 64, and files of raw little-endian values";
const LEAST_ROUNDS: usize = 15;
const USUAL_ROUNDS: usize = 25;

fn main() -> ExitCode {
    let Some(options) = options_of(std::env::args().skip(1)) else {
        eprintln!("{USAGE}");
        return ExitCode::from(2);
    };
    match run(&options) {
        Ok(()) => ExitCode::SUCCESS,
        Err(error) => {
            eprintln!("bench: {error}");
            ExitCode::FAILURE
        }
    }
}

struct Options {
    directory: PathBuf,
    rounds: usize,
    /// Files of values of each width.
    files_32: Vec<PathBuf>,
    files_64: Vec<PathBuf>,
}

fn options_of(mut arguments: impl Iterator<Item = String>) -> Option<Options> {
    let directory = arguments.next()?.into();
    let (files_32, files_64) = (Vec::new(), Vec::new());
    let mut options = Options { directory, rounds: USUAL_ROUNDS, files_32, files_64 };
    while let Some(argument) = arguments.next() {
        if argument == "--field" {
            let files = match arguments.next()?.as_str() {
                "32" => &mut options.files_32,
                "64" => &mut options.files_64,
                _ => return None,
            };
            files.push(arguments.next()?.into());
        } else {
            options.rounds = argument.parse().ok().filter(|&rounds| rounds >= LEAST_ROUNDS)?;
        }
    }
    Some(options)
}

fn run(options: &Options) -> Result<(), String> {
    let (singles, doubles) = (samples::<u32>(&options.files_32)?, samples(&options.files_64)?);
    let watch = Watch { rounds: options.rounds, clock: processor_time };
    #[cfg(plain_c)]
    plain_c::agrees_with_reference()?;
    print!("{}{}", report::conditions(watch.rounds), missing());
    let mut results = Results::default();
    results.measure::<u32>(&singles, watch);
    results.measure::<u64>(&doubles, watch);
    results.write(options)?;
    results.print();
    Ok(())
}

fn samples<P: Value>(files: &[PathBuf]) -> Result<Vec<Sample<P>>, String> {
    files.iter().map(|file| Sample::of_file(file)).collect()
}

#[derive(Default)]
struct Results {
    rows: Vec<rows::Row>,
    growths: Vec<growth::Growth>,
    keeping: Vec<report::Keeping>,
}

impl Results {
    fn measure<P: Measured>(&mut self, files: &[Sample<P>], watch: Watch) {
        let codecs = P::codecs();
        let others: Vec<_> = installable::<P>().into_iter().filter_map(|one| one.found).collect();
        for setting in SETTINGS {
            let (width, mode, group) = (P::W, setting.mode, setting.group);
            let name = format!("width {width} mode {mode} group {group} {}", setting.halves());
            let mut add_row = |sample: &Sample<P>| {
                eprintln!("{name} {}", sample.name);
                self.rows.push(rows::measure(sample, setting, &codecs, &others, watch));
            };
            FIELDS.iter().for_each(|field| add_row(&field.sample()));
            files.iter().for_each(add_row);
            if setting.is_read() {
                eprintln!("{name} growth");
                self.growths.push(growth::measure(setting, &codecs[0], watch));
            }
            let others = others.iter().filter(|other| other.runs_beside(setting));
            self.keeping.extend(others.map(|other| report::kept_by(other, setting)));
        }
    }

    fn write(&self, options: &Options) -> Result<(), String> {
        let texts = [
            ("results.csv", report::csv(&self.rows)),
            ("growth.csv", report::growth_csv(&self.growths)),
        ];
        for (name, text) in texts {
            let path = options.directory.join(name);
            std::fs::write(&path, text).map_err(|error| format!("{}: {error}", path.display()))?;
        }
        Ok(())
    }

    fn print(&self) {
        print!("{}", report::beside(Who::Tuned, "the tuned version, the bar", &self.rows));
        if cfg!(plain_c) {
            print!("{}", report::beside(Who::PlainC, "plain C", &self.rows));
        }
        print!("{}", report::differences(&self.rows));
        print!("{}", report::group_sizes(&self.rows));
        print!("{}", report::beside_others(&self.rows));
        print!("{}", report::keeping(&self.keeping));
        print!("{}", report::growing(&self.growths));
        print!("{}", report::load_line());
    }
}

/// What is left out, and how to have it.
fn missing() -> String {
    let mut text = String::new();
    if !cfg!(plain_c) {
        text += "plain C is left out: no C compiler was found when this was built (cc, or what CC \
                 names)\n\n";
    }
    let absent = installable::<u32>().into_iter().filter(|one| one.found.is_none());
    let told = |one: Installable<u32>| {
        format!("{} is not installed: apt-get install {}\n\n", one.who.name(), one.package)
    };
    text.extend(absent.map(told));
    text
}

/// A width, and the versions of the format that are measured there: first the
/// library, last plain C where it was compiled.
trait Measured: Value {
    fn codecs() -> Vec<Codec<Self>>;
}

macro_rules! measured {
    ($word:ident) => {
        impl Measured for $word {
            fn codecs() -> Vec<Codec<$word>> {
                Vec::from([
                    codec_of::<Library, $word>(Who::Ours),
                    tuned_codec(),
                    #[cfg(plain_c)]
                    codec_of::<plain_c::PlainC, $word>(Who::PlainC),
                ])
            }
        }
    };
}

measured!(u32);
measured!(u64);
