//! Reading a register line by line, and the name of one of its states.

use crate::{refusal, Method, Refusal, BYTES_LIMIT, HOUSE_LIMIT, STATES_LIMIT, SUM_LIMIT};
use std::collections::HashSet;

/// A register as read: names and populations in order, and the sum of the populations.
#[derive(Clone, Debug, PartialEq, Eq)]
pub struct Register<'a> {
    pub method: Method,
    pub house: u64,
    pub total: u64,
    pub names: Vec<&'a [u8]>,
    pub populations: Vec<u64>,
}

/// Reads a register. The first faulty line is reported; within a line the first check to fail.
pub fn read(bytes: &[u8]) -> Result<Register<'_>, Refusal> {
    if bytes.len() > BYTES_LIMIT {
        return Err(refusal(1));
    }
    let mut lines = Lines {
        rest: bytes,
        line: 0,
    };

    let head = lines.next()?;
    let [word, method, house, count] = head[..] else {
        return Err(lines.fault(2));
    };
    let (Some(house), Some(count)) = (number(house), number(count)) else {
        return Err(lines.fault(2));
    };
    if word != b"register" || !is_method_field(method) {
        return Err(lines.fault(2));
    }
    let Some(method) = Method::ALL
        .into_iter()
        .find(|m| m.name().as_bytes() == method)
    else {
        return Err(lines.fault(4));
    };
    if !(1..=HOUSE_LIMIT).contains(&house) || !(1..=STATES_LIMIT as u64).contains(&count) {
        return Err(lines.fault(3));
    }

    let mut names = Vec::new();
    let mut populations = Vec::new();
    let mut used = HashSet::new();
    let mut sum = 0;
    for _ in 0..count {
        let state = lines.next()?;
        let [name, population] = state[..] else {
            return Err(lines.fault(2));
        };
        let (true, Some(population)) = (is_name(name), number(population)) else {
            return Err(lines.fault(2));
        };
        if !(1..=SUM_LIMIT).contains(&population) {
            return Err(lines.fault(3));
        }
        if !used.insert(name) {
            return Err(lines.fault(5));
        }
        sum += population;
        if sum > SUM_LIMIT {
            return Err(lines.fault(6));
        }
        names.push(name);
        populations.push(population);
    }

    let closing = lines.next()?;
    let [word, total] = closing[..] else {
        return Err(lines.fault(2));
    };
    let (b"total", Some(total)) = (word, number(total)) else {
        return Err(lines.fault(2));
    };
    if !(1..=SUM_LIMIT).contains(&total) {
        return Err(lines.fault(3));
    }
    if total != sum {
        return Err(lines.fault(7));
    }
    if !lines.rest.is_empty() {
        lines.line += 1;
        return Err(lines.fault(2));
    }
    Ok(Register {
        method,
        house,
        total,
        names,
        populations,
    })
}

/// The name of the state with a given place, counted from 0.
pub fn name(bytes: &[u8], place: usize) -> Result<&[u8], Refusal> {
    read(bytes)?.names.get(place).copied().ok_or(refusal(40))
}

/// The lines not yet read, and the number of the line last asked for.
struct Lines<'a> {
    rest: &'a [u8],
    line: u64,
}

impl<'a> Lines<'a> {
    /// The fields of the next line, which ends in LF or CR LF.
    fn next(&mut self) -> Result<Vec<&'a [u8]>, Refusal> {
        self.line += 1;
        let Some(end) = self.rest.iter().position(|&b| b == b'\n') else {
            return Err(self.fault(2));
        };
        let line = &self.rest[..end];
        self.rest = &self.rest[end + 1..];
        let line = line.strip_suffix(b"\r").unwrap_or(line);
        Ok(line.split(|&b| b == b',').collect())
    }

    fn fault(&self, number: u64) -> Refusal {
        Refusal {
            number,
            line: self.line,
        }
    }
}

/// A number of 1 to 10 digits.
fn number(field: &[u8]) -> Option<u64> {
    if field.is_empty() || field.len() > 10 || !field.iter().all(u8::is_ascii_digit) {
        return None;
    }
    std::str::from_utf8(field).ok()?.parse().ok()
}

/// 1 to 32 bytes from 32 to 126, no blank at either end.
fn is_name(field: &[u8]) -> bool {
    (1..=32).contains(&field.len())
        && field.iter().all(|b| (32..=126).contains(b))
        && !field.starts_with(b" ")
        && !field.ends_with(b" ")
}

/// 1 to 32 bytes from 33 to 126.
fn is_method_field(field: &[u8]) -> bool {
    (1..=32).contains(&field.len()) && field.iter().all(|b| (33..=126).contains(b))
}
