//! Clean copies of registers at the limits: beside reading, which cleaning begins with, and beside
//! the plain desk's. Prints Markdown for docs/BENCHMARKS.md.

use crate::families::ORDINARY;
use crate::plain::{commas, micros};
use crate::{calls, longest_register, repeat};
use reference::{HOUSE_LIMIT, STATES_LIMIT, SUM_LIMIT};
use std::hint::black_box;

/// Repeats of each program, the best of which counts; they take turns.
const REPEATS: u32 = 60;

/// The programs in the order of their times.
const PROGRAMS: [&str; 3] = ["library: read", "library: clean", "reference: clean"];

pub fn print_it() {
    println!(
        "Clean copies, by registers: bytes of the register and of its copy, each program's time in"
    );
    println!("µs, and the library's time over the reference's and over that of its own reading:\n");
    println!(
        "| | bytes | clean | {} | clean over the reference | clean over read |",
        PROGRAMS.join(" | ")
    );
    println!("|---|{}", "--:|".repeat(PROGRAMS.len() + 4));
    for (name, bytes) in registers() {
        let [read, clean, plain] = times(&bytes);
        let length = check(&bytes);
        println!(
            "| {name} | {} | {} | {} | {} | {} | {:.2} | {:.2} |",
            commas(bytes.len() as u64),
            commas(length as u64),
            micros(read),
            micros(clean),
            micros(plain),
            clean / plain,
            clean / read
        );
    }
}

/// The registers by name: the longest lines there are, the same when clean, the shortest names, the
/// most digits to write, the most states that the library writes on its small page and one more, few,
/// and a single one.
fn registers() -> [(String, Vec<u8>); 8] {
    let ordinary = ORDINARY.populations(STATES_LIMIT);
    let longest = longest_register(HOUSE_LIMIT, &ordinary);
    let clean = reference::clean(&longest).expect("a sound register");
    let short = short_names(HOUSE_LIMIT, &ordinary);
    let largest = longest_register(HOUSE_LIMIT, &largest_populations(STATES_LIMIT));
    let few = |n| short_names(HOUSE_LIMIT, &largest_populations(n));
    let one = longest_register(1, &[1]);
    let named = |what: &str| format!("{STATES_LIMIT} states, {what}");
    [
        (named("names of 32 bytes, ten digits, CR LF"), longest),
        (named("the same, clean already"), clean),
        (named("names of 1 to 3 bytes"), short),
        (named("the largest populations, ten digits, CR LF"), largest),
        (
            "151 states, short names, the largest populations".to_string(),
            few(151),
        ),
        ("150 states, the same".to_string(), few(150)),
        ("5 states, the same".to_string(), few(5)),
        ("1 state, ten digits, CR LF".to_string(), one),
    ]
}

/// A register typed plainly, with names as short as so many can be in digits.
fn short_names(house: u64, populations: &[u64]) -> Vec<u8> {
    let mut text = format!("register,remainders,{house},{}\n", populations.len());
    for (i, population) in populations.iter().enumerate() {
        text += &format!("{i},{population}\n");
    }
    text += &format!("total,{}\n", populations.iter().sum::<u64>());
    text.into_bytes()
}

/// Populations of so many states at the largest sum, with about as many digits as there can be:
/// equal ones.
fn largest_populations(n: usize) -> Vec<u64> {
    let states = n as u64;
    let mut populations = vec![SUM_LIMIT / states; n];
    populations[0] += SUM_LIMIT % states;
    populations
}

/// Panics unless both desks write the same copy; hands back its length.
fn check(bytes: &[u8]) -> usize {
    let copy = desk::clean(bytes).expect("a sound register");
    assert_eq!(Ok(&copy), reference::clean(bytes).as_ref());
    copy.len()
}

/// The best time of each program on a register, in nanoseconds.
fn times(bytes: &[u8]) -> [f64; PROGRAMS.len()] {
    let mut out = vec![0; desk::CLEAN_ROOM];
    let mut other = out.clone();
    let mut runs: [Box<dyn FnMut() -> bool + '_>; PROGRAMS.len()] = [
        Box::new(|| black_box(desk::read(black_box(bytes))).is_ok()),
        Box::new(|| desk::write_clean(black_box(bytes), black_box(&mut out)).is_ok()),
        Box::new(|| reference::write_clean(black_box(bytes), black_box(&mut other)).is_ok()),
    ];
    let counts = runs.each_mut().map(calls);
    let mut best = [f64::INFINITY; PROGRAMS.len()];
    for _ in 0..REPEATS {
        for ((best, run), count) in best.iter_mut().zip(&mut runs).zip(counts) {
            *best = best.min(repeat(count, run));
        }
    }
    best
}

#[cfg(test)]
mod tests {
    use super::*;

    #[test]
    fn both_desks_write_the_same_copies_of_these_registers() {
        for (name, bytes) in registers() {
            let register = reference::read(&bytes).expect(&name);
            let length = check(&bytes);
            assert!(length <= bytes.len() && length <= desk::CLEAN_ROOM);
            assert!(
                [1, 5, 150, 151, STATES_LIMIT].contains(&register.names.len()),
                "{name}"
            );
        }
    }
}
