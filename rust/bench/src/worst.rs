//! The worst that is known: inputs full of ties at the limit of states, on which the library is
//! timed beside the fastest exact plain program. Prints Markdown for docs/BENCHMARKS.md.

use crate::families::{houses, FAMILIES, STATES};
use crate::plain::{commas, micros, programs, Times};
use crate::{growth, quota, yardstick};
use reference::Method;

/// Repeats of each input, the best of which counts.
const REPEATS: u32 = 20;
/// So many inputs of each method, those with the largest ratios, are timed again with more
/// repeats, so that an interruption does not make the worst one.
const AGAIN: usize = 6;
const REPEATS_AGAIN: u32 = 60;

/// One input and the times on it.
pub struct Timed {
    pub family: usize,
    pub house: u64,
    pub times: Times,
}

/// A method's inputs.
pub struct Results {
    pub method: Method,
    /// The largest ratio to the fastest plain program first.
    pub timed: Vec<Timed>,
}

/// Times everything and prints the tables.
pub fn time_it() {
    let results = Method::ALL.map(time_method);
    yardstick::print_it();
    print_worst(&results);
    print_programs(&results);
    print_longest(&results);
    print_families(&results);
    growth::print_it(&results);
    println!();
    quota::print_it();
}

fn time_method(method: Method) -> Results {
    let times = |family: usize, house: u64, repeats: u32| {
        Times::of(
            method,
            house,
            &FAMILIES[family].populations(STATES),
            repeats,
        )
    };
    let mut timed = Vec::new();
    for family in 0..FAMILIES.len() {
        for house in houses(method, STATES as u64) {
            if !method.seats_every_state() || house >= STATES as u64 {
                timed.push(Timed {
                    family,
                    house,
                    times: times(family, house, REPEATS),
                });
            }
        }
    }
    // The worst beside each plain program are timed again, since a machine that was disturbed for a
    // moment would otherwise be taken for a slow program.
    for place in 1..programs(method).len() {
        timed.sort_by(|a, b| b.times.ratio_to(place).total_cmp(&a.times.ratio_to(place)));
        for timed in &mut timed[..AGAIN] {
            let again = times(timed.family, timed.house, REPEATS_AGAIN);
            timed.times.improve(&again);
        }
    }
    timed.sort_by(|a, b| b.times.ratio().total_cmp(&a.times.ratio()));
    Results { method, timed }
}

fn print_worst(results: &[Results]) {
    let most = houses(Method::Quota, STATES as u64);
    let houses = houses(Method::Leximin, STATES as u64);
    println!("\nLibrary's time over that of the fastest exact plain program at {STATES} states:");
    println!(
        "the worst of {} families with ties and of {} houses from {} to {} (from {STATES} on where",
        FAMILIES.len(),
        houses.len(),
        houses[0],
        commas(houses[houses.len() - 1])
    );
    println!(
        "the method gives every state a seat; under quota {} houses up to {}). Times in µs; the",
        most.len(),
        commas(most[most.len() - 1])
    );
    println!("last column says on how many of the inputs the library was slower:\n");
    println!("| | worst ratio | family | house | library | plain | which plain | above 1 |");
    println!("|---|--:|---|--:|--:|--:|---|--:|");
    for Results { method, timed } in results {
        let worst = &timed[0];
        let above = timed.iter().filter(|timed| timed.times.ratio() > 1.0);
        println!(
            "| {} | {} | {} of {} |",
            method.name(),
            cells(*method, worst),
            above.count(),
            timed.len()
        );
    }
}

/// Ratio, place, times and the fastest plain program.
fn cells(
    method: Method,
    Timed {
        family,
        house,
        times,
    }: &Timed,
) -> String {
    format!(
        "{:.2} | {} | {} | {} | {} | {}",
        times.ratio(),
        FAMILIES[*family].name,
        commas(*house),
        micros(times.library()),
        micros(times.plain()),
        programs(method)[times.fastest()].0
    )
}

fn print_programs(results: &[Results]) {
    println!("\nThe same beside each plain program by itself:\n");
    println!("| | plain program | worst ratio | family | house | library | plain | above 1 |");
    println!("|---|---|--:|---|--:|--:|--:|--:|");
    for Results { method, timed } in results {
        for (place, (program, _)) in programs(*method).iter().enumerate().skip(1) {
            let ratio = |timed: &Timed| timed.times.ratio_to(place);
            let worst = timed
                .iter()
                .max_by(|a, b| ratio(a).total_cmp(&ratio(b)))
                .expect("an input");
            println!(
                "| {} | {program} | {:.2} | {} | {} | {} | {} | {} of {} |",
                method.name(),
                ratio(worst),
                FAMILIES[worst.family].name,
                commas(worst.house),
                micros(worst.times.library()),
                micros(worst.times.of_program(place)),
                timed.iter().filter(|timed| ratio(timed) > 1.0).count(),
                timed.len()
            );
        }
    }
}

fn print_longest(results: &[Results]) {
    println!("\nWhere the library takes longest among these inputs:\n");
    println!("| | ratio | family | house | library | plain | which plain |");
    println!("|---|--:|---|--:|--:|--:|---|");
    for Results { method, timed } in results {
        let longest = timed
            .iter()
            .max_by(|a, b| a.times.library().total_cmp(&b.times.library()))
            .expect("an input");
        println!("| {} | {} |", method.name(), cells(*method, longest));
    }
}

fn print_families(results: &[Results]) {
    println!("\nThe worst ratio to the fastest plain program in each family, and its house:\n");
    let names: Vec<&str> = results.iter().map(|of| of.method.name()).collect();
    println!("| | {} |", names.join(" | "));
    println!("|---|{}", "--:|".repeat(names.len()));
    for (family, of) in FAMILIES.iter().enumerate() {
        let cells: Vec<String> = results
            .iter()
            .map(|results| {
                let worst = results.timed.iter().find(|timed| timed.family == family);
                let worst = worst.expect("an input of the family");
                format!("{:.2} ({})", worst.times.ratio(), commas(worst.house))
            })
            .collect();
        println!("| {} | {} |", of.name, cells.join(" | "));
    }
}
