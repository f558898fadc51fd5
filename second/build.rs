//! Links the programs `compare` and `bench`, and nothing else, with the
//! archive libgwizdorad.a in the directory GWZ_LIB_DIR names, and `bench` also
//! with the C version of the format. Without the feature `linked` nothing is
//! linked, and neither an archive nor a C compiler is needed.

use std::env;
use std::path::Path;
use std::process::Command;

const C_VERSION: &str = "src/plain.c";

fn main() {
    println!("cargo::rerun-if-changed=build.rs");
    println!("cargo::rerun-if-changed={C_VERSION}");
    println!("cargo::rerun-if-env-changed=GWZ_LIB_DIR");
    println!("cargo::rerun-if-env-changed=CC");
    println!("cargo::rustc-check-cfg=cfg(plain_c)");
    if env::var_os("CARGO_FEATURE_LINKED").is_some() {
        link_archive();
        link_c_version();
    }
}

fn link_archive() {
    let Some(directory) = env::var_os("GWZ_LIB_DIR") else {
        println!("cargo::error=GWZ_LIB_DIR must name the directory of libgwizdorad.a");
        return;
    };
    match Path::new(&directory).join("libgwizdorad.a").canonicalize() {
        Ok(archive) => {
            println!("cargo::rerun-if-changed={}", archive.display());
            for program in ["compare", "bench"] {
                println!("cargo::rustc-link-arg-bin={program}={}", archive.display());
                // A library written in Rust without std may bring its own panic
                // handler; that of std comes first and is the one taken.
                println!("cargo::rustc-link-arg-bin={program}=-Wl,-z,muldefs");
            }
        }
        Err(error) => println!("cargo::error=no libgwizdorad.a in GWZ_LIB_DIR: {error}"),
    }
}

/// Compiles the C version where there is a C compiler: the one that CC names,
/// or else cc. The configuration `plain_c` tells the benchmark that it is there.
fn link_c_version() {
    let object = Path::new(&env::var_os("OUT_DIR").unwrap_or_default()).join("plain.o");
    let named = env::var("CC").unwrap_or_default();
    let mut words = named.split_whitespace();
    let compiler = words.next().unwrap_or("cc");
    let mut command = Command::new(compiler);
    // As Rust does it: for the plain processor, and for a place in memory that
    // is chosen when the program starts.
    command.args(words).args(["-O3", "-std=c99", "-fPIE", "-c", C_VERSION, "-o"]).arg(&object);
    match command.status() {
        Ok(status) if status.success() => {
            println!("cargo::rustc-cfg=plain_c");
            println!("cargo::rustc-link-arg-bin=bench={}", object.display());
        }
        Ok(_) => println!("cargo::warning={compiler} did not compile {C_VERSION}"),
        Err(_) => {} // there is none, which the benchmark says
    }
}
