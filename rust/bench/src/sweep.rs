//! Every house from the number of states to the limit under leximin, one after another, for several
//! kinds of populations. Prints Markdown for docs/BENCHMARKS.md.

use crate::families::KINDS;
use crate::plain::{commas, micros, programs, Fill, LIBRARY, REFERENCE};
use crate::yardstick;
use reference::{Method, HOUSE_LIMIT, STATES_LIMIT};
use std::hint::black_box;
use std::time::Instant;

/// Sweeps by each program; of each house's times the best counts. A house comes again only after
/// all others, so that no program is timed on branches that it has just been through.
const PASSES: u32 = 5;
/// Houses after which the programs take turns.
const TURN: usize = 100;
/// The reference goes through all states for each seat that it moves, which takes too long for
/// every house; it has one in so many. A prime, so that no tie is met or missed every time.
const SAMPLE: u64 = 293;
/// Targets are set for a machine on which the yardstick takes so long, in nanoseconds.
const YARDSTICK: f64 = 1_500_000.0;

/// The times of one program over its houses, in nanoseconds.
struct Swept {
    average: f64,
    slowest: f64,
}

/// A kind's populations swept by every program.
struct Row {
    kind: &'static str,
    swept: Vec<Swept>,
}

pub fn print_it() {
    let rows = KINDS.map(|kind| Row {
        kind: kind.name,
        swept: sweep(&kind.populations(STATES_LIMIT)),
    });
    print_rows(&rows);
    println!();
    let times = yardstick::print_it();
    let scales: Vec<(&str, f64)> = programs(Method::Hill)
        .iter()
        .enumerate()
        .filter(|(_, (name, _))| ["reference", "heap from nothing"].contains(name))
        .map(|(place, (name, _))| (*name, YARDSTICK / times.of_program(place)))
        .collect();
    print_scaled(&rows, &scales);
}

fn houses() -> impl Iterator<Item = u64> {
    STATES_LIMIT as u64..=HOUSE_LIMIT
}

/// Whether a program has this house.
fn has_turn(place: usize, house: u64) -> bool {
    place != REFERENCE || house % SAMPLE == 0
}

fn sweep(populations: &[u64]) -> Vec<Swept> {
    let programs = programs(Method::Leximin);
    check(&programs, populations);
    let mut seats = vec![0; populations.len()];
    let mut best = vec![vec![f64::INFINITY; HOUSE_LIMIT as usize + 1]; programs.len()];
    let houses: Vec<u64> = houses().collect();
    for _ in 0..PASSES {
        for houses in houses.chunks(TURN) {
            for (place, (_, fill)) in programs.iter().enumerate() {
                for &house in houses.iter().filter(|&&house| has_turn(place, house)) {
                    let start = Instant::now();
                    let populations = black_box(populations);
                    fill(Method::Leximin, house, populations, black_box(&mut seats));
                    let time = start.elapsed().as_nanos() as f64;
                    let best = &mut best[place][house as usize];
                    *best = best.min(time);
                }
            }
        }
    }
    let swept = best.iter().map(|times| {
        let timed: Vec<f64> = times
            .iter()
            .copied()
            .filter(|time| time.is_finite())
            .collect();
        Swept {
            average: timed.iter().sum::<f64>() / timed.len() as f64,
            slowest: timed.iter().copied().fold(0.0, f64::max),
        }
    });
    swept.collect()
}

/// Panics unless the programs fill the same seats at every house that they have.
fn check(programs: &[(&str, Fill)], populations: &[u64]) {
    let mut seats = vec![0; populations.len()];
    let mut other = seats.clone();
    for house in houses() {
        programs[LIBRARY].1(Method::Leximin, house, populations, &mut seats);
        for (place, (name, fill)) in programs.iter().enumerate().skip(1) {
            if has_turn(place, house) {
                other.fill(u64::MAX);
                fill(Method::Leximin, house, populations, &mut other);
                assert_eq!(seats, other, "{name}, {house} {populations:?}");
            }
        }
    }
}

fn print_rows(rows: &[Row]) {
    let programs = programs(Method::Leximin);
    let all = houses().count();
    let sampled = houses().filter(|&house| has_turn(REFERENCE, house)).count();
    println!(
        "Every house from {STATES_LIMIT} to {} under leximin at {STATES_LIMIT} states, by kinds of",
        commas(HOUSE_LIMIT)
    );
    println!(
        "populations: the whole sweep in ms, one house on average and the slowest house in µs,"
    );
    println!(
        "each house at the best of {PASSES} sweeps. The quickest plain program is the one whose"
    );
    println!(
        "sweep is shortest. The reference has one house in {SAMPLE}, {sampled} of {}, and its sweep",
        commas(all as u64)
    );
    println!("is reckoned from them:\n");
    println!(
        "| | library: sweep | one | slowest | quickest plain | its sweep | one | slowest | \
         library over it | reference: sweep | one | slowest |"
    );
    println!("|---|--:|--:|--:|---|--:|--:|--:|--:|--:|--:|--:|");
    let cells = |swept: &Swept| {
        let sweep = swept.average * all as f64 / 1e6;
        let (one, slowest) = (micros(swept.average), micros(swept.slowest));
        format!("{sweep:.0} | {one} | {slowest}")
    };
    for Row { kind, swept } in rows {
        let quickest = (LIBRARY + 1..programs.len())
            .min_by(|&a, &b| swept[a].average.total_cmp(&swept[b].average))
            .expect("a plain program");
        println!(
            "| {kind} | {} | {} | {} | {:.2} | {} |",
            cells(&swept[LIBRARY]),
            programs[quickest].0,
            cells(&swept[quickest]),
            swept[LIBRARY].average / swept[quickest].average,
            cells(&swept[REFERENCE])
        );
    }
}

/// The library's averages on the machine of the targets, reckoned by each program that has the
/// yardstick.
fn print_scaled(rows: &[Row], scales: &[(&str, f64)]) {
    println!("\nOne house by the library on average, in µs: here, and on a machine on which one of these");
    println!(
        "programs takes {:.1} ms for that problem:\n",
        YARDSTICK / 1e6
    );
    let heads: Vec<String> = scales
        .iter()
        .map(|(name, _)| format!("by the {name}"))
        .collect();
    println!("| | here | {} |", heads.join(" | "));
    println!("|---|--:|{}", "--:|".repeat(heads.len()));
    for Row { kind, swept } in rows {
        let average = swept[LIBRARY].average;
        let cells: Vec<String> = scales
            .iter()
            .map(|(_, scale)| micros(average * scale))
            .collect();
        println!("| {kind} | {} | {} |", micros(average), cells.join(" | "));
    }
}
