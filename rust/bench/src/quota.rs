//! The quota method at the limits, for several kinds of populations: its cost grows with the house,
//! so that it is dearest there. Prints Markdown for docs/BENCHMARKS.md.

use crate::families::KINDS;
use crate::plain::{commas, micros, programs, Times};
use reference::{Method, HOUSE_LIMIT, STATES_LIMIT};

/// Repeats of each input, the best of which counts.
const REPEATS: u32 = 20;

pub fn print_it() {
    let programs = programs(Method::Quota);
    println!(
        "The quota method for {STATES_LIMIT} states and a house of {}, by kinds of populations: each",
        commas(HOUSE_LIMIT)
    );
    println!("program's time in µs, and the library's over that of the fastest plain one:\n");
    let names: Vec<&str> = programs.iter().map(|(name, _)| *name).collect();
    println!("| | {} | library over the fastest |", names.join(" | "));
    println!("|---|{}", "--:|".repeat(names.len() + 1));
    for kind in KINDS {
        let populations = kind.populations(STATES_LIMIT);
        let times = Times::of(Method::Quota, HOUSE_LIMIT, &populations, REPEATS);
        let cells: Vec<String> = (0..programs.len())
            .map(|place| micros(times.of_program(place)))
            .collect();
        println!(
            "| {} | {} | {:.2} |",
            kind.name,
            cells.join(" | "),
            times.ratio()
        );
    }
}
