//! The C version in `plain.c`, which build.rs compiles where it finds a C
//! compiler.

use second::compare::call::Call;
use second::compare::operations::by_operations;
use second::compare::reference::by_reference;
use second::compare::run_briefly;

pub struct PlainC;

operations!(PlainC, u32, plain_check, plain_pack32, plain_length32, plain_unpack32, plain_probe32);
operations!(PlainC, u64, plain_check, plain_pack64, plain_length64, plain_unpack64, plain_probe64);

/// Nothing, or how it differs from the reference.
pub fn agrees_with_reference() -> Result<(), String> {
    let by_plain_c =
        |call: &Call| by_operations::<PlainC>(call).unwrap_or_else(|| by_reference(call));
    let mut text = Vec::new();
    if run_briefly(&by_plain_c, &mut text) {
        Ok(())
    } else {
        Err(format!("plain C differs from the reference\n{}", String::from_utf8_lossy(&text)))
    }
}
