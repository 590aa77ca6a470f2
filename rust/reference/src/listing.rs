//! The listing of a register's allotment.

use crate::{allot, departure, mark_name, read, shown_text, write_text, Refusal};
use std::io::Write;

/// The listing for a register.
pub fn listing(bytes: &[u8]) -> Result<Vec<u8>, Refusal> {
    let register = read(bytes)?;
    let (house, total, n) = (register.house, register.total, register.populations.len());
    let mut seats = vec![0; n];
    allot(register.method, house, &register.populations, &mut seats)?;

    let written = "a list of bytes takes every byte";
    let mut out = Vec::new();
    let method = register.method.name();
    writeln!(out, "allotment,{method},{house},{n}").expect(written);
    for ((name, &p), &a) in register.names.iter().zip(&register.populations).zip(&seats) {
        let departure = departure(p, a, total, house)?;
        let shown = shown_text(departure.map(|(shown, _)| shown));
        let mark = mark_name(departure.map(|(_, mark)| mark));
        out.extend_from_slice(name);
        writeln!(out, ",{p},{a},{shown},{mark}").expect(written);
    }
    writeln!(out, "total,{total},{}", seats.iter().sum::<u64>()).expect(written);
    Ok(out)
}

/// Writes the listing into a lent buffer and hands back its length.
pub fn write_listing(bytes: &[u8], out: &mut [u8]) -> Result<usize, Refusal> {
    write_text(&listing(bytes)?, out)
}
