//! How the cost grows with the number of states, on each method's worst input.

use crate::families::{FAMILIES, STATES};
use crate::plain::{commas, micros, Times};
use crate::worst::{Results, Timed};
use reference::{Method, HOUSE_LIMIT};

/// The numbers of states.
const GROWTH: [usize; 6] = [
    STATES / 16,
    STATES / 8,
    STATES / 4,
    STATES / 2,
    STATES / 4 * 3,
    STATES,
];
/// Repeats of each input, the best of which counts.
const REPEATS: u32 = 40;

pub fn print_it(results: &[Results]) {
    println!("\nHow the cost grows with the number of states n: the family of each method's worst");
    println!(
        "ratio, and a house in the same proportion to n, moved by up to 2 to where the library"
    );
    println!("takes longest. Times in µs, and the exponent k of n^k fitted to them:\n");
    let heads: Vec<String> = GROWTH.iter().map(|n| format!("n = {n}")).collect();
    println!("| | | {} | exponent |", heads.join(" | "));
    println!("|---|---|{}", "--:|".repeat(heads.len() + 1));
    for Results { method, timed } in results {
        let worst = &timed[0];
        let grown = GROWTH.map(|states| grown(*method, worst, states));
        let houses: Vec<String> = grown.iter().map(|(house, _)| commas(*house)).collect();
        let row = |time: fn(&Times) -> f64| {
            let times: Vec<f64> = grown.iter().map(|(_, times)| time(times)).collect();
            let cells: Vec<String> = times.iter().map(|&time| micros(time)).collect();
            format!("{} | {:.2}", cells.join(" | "), exponent(&times))
        };
        let family = FAMILIES[worst.family].name;
        println!(
            "| {}, {family} | house | {} | |",
            method.name(),
            houses.join(" | ")
        );
        println!("| | library | {} |", row(Times::library));
        println!("| | fastest plain | {} |", row(Times::plain));
    }
}

/// The house and the times of the method's worst input at a number of states.
fn grown(method: Method, worst: &Timed, states: usize) -> (u64, Times) {
    let populations = FAMILIES[worst.family].populations(states);
    let least = if method.seats_every_state() {
        states as u64
    } else {
        1
    };
    let scaled = worst.house * states as u64 / STATES as u64;
    (least.max(scaled - 1)..=HOUSE_LIMIT.min(scaled + 2))
        .map(|house| (house, Times::of(method, house, &populations, REPEATS)))
        .max_by(|(_, a), (_, b)| a.library().total_cmp(&b.library()))
        .expect("a house")
}

/// The slope of the line through log time over log n by least squares.
fn exponent(times: &[f64]) -> f64 {
    let logs: Vec<(f64, f64)> = GROWTH
        .iter()
        .zip(times)
        .map(|(&states, time)| ((states as f64).ln(), time.ln()))
        .collect();
    let count = logs.len() as f64;
    let x = logs.iter().map(|log| log.0).sum::<f64>() / count;
    let y = logs.iter().map(|log| log.1).sum::<f64>() / count;
    let over: f64 = logs.iter().map(|log| (log.0 - x) * (log.1 - y)).sum();
    let under: f64 = logs.iter().map(|log| (log.0 - x).powi(2)).sum();
    over / under
}
