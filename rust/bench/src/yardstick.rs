//! The problem by which machines are compared: Hill on ordinary populations.

use crate::families::ordinary;
use crate::plain::{commas, micros, programs, Times};
use reference::Method;

/// The yardstick's own states and house, which are no limits: figures of earlier days and of other
/// machines were taken with these.
const STATES: usize = 250;
const HOUSE: u64 = 9_999;
/// Repeats, the best of which counts.
const REPEATS: u32 = 40;

/// Times the programs on the yardstick and prints a line of them.
pub fn print_it() -> Times {
    let times = Times::of(Method::Hill, HOUSE, &ordinary(STATES, HOUSE, 1), REPEATS);
    let shown: Vec<String> = programs(Method::Hill)
        .iter()
        .enumerate()
        .map(|(place, (name, _))| format!("{name} {}", micros(times.of_program(place))))
        .collect();
    println!(
        "For comparing machines: Hill on {STATES} ordinary populations and a house of {}, µs:",
        commas(HOUSE)
    );
    println!("{}.", shown.join(", "));
    times
}
