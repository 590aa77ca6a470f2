//! The clean copy of a register: its lines once more, typed in the one way that all registers which
//! say the same have in common.

use crate::{read, write_text, Refusal};
use std::io::Write;

/// The clean copy of a register: lines end in LF, and numbers have no leading zeros.
pub fn clean(bytes: &[u8]) -> Result<Vec<u8>, Refusal> {
    let register = read(bytes)?;
    let written = "a list of bytes takes every byte";
    let mut out = Vec::new();
    let (method, house, n) = (register.method.name(), register.house, register.names.len());
    writeln!(out, "register,{method},{house},{n}").expect(written);
    for (name, population) in register.names.iter().zip(&register.populations) {
        out.extend_from_slice(name);
        writeln!(out, ",{population}").expect(written);
    }
    writeln!(out, "total,{}", register.total).expect(written);
    Ok(out)
}

/// Writes the clean copy into a lent buffer and hands back its length.
pub fn write_clean(bytes: &[u8], out: &mut [u8]) -> Result<usize, Refusal> {
    write_text(&clean(bytes)?, out)
}
