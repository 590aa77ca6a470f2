//! Times the proved desk and the plain reference on the same inputs in one run and prints two
//! Markdown tables: the library's time over the reference's, and the library's own times. With the
//! word `programs` it times whole programs at the limits instead, with the word `worst` inputs full
//! of ties beside the fastest plain programs, with the word `quota` the quota method at the limits,
//! which `worst` prints too, with the word `sweep` every house under leximin for several kinds of
//! populations, with the word `moves` a placing moved to its house beside allotting that house, and
//! with the word `clean` clean copies of registers. Build it with `--release`.

mod clean;
mod events;
mod families;
mod growth;
mod heap;
mod leximin;
mod moves;
mod plain;
mod programs;
mod quota;
mod sweep;
mod tournament;
mod worst;
mod yardstick;

use plain::commas;
use reference::{HOUSE_LIMIT, STATES_LIMIT};
use std::hint::black_box;
use std::time::{Duration, Instant};

const STATES: [usize; 3] = [10, 100, STATES_LIMIT];
const HOUSES: [u64; 3] = [100, 1_000, HOUSE_LIMIT];
const METHODS: [&str; 8] = [
    "leximin",
    "adams",
    "dean",
    "hill",
    "webster",
    "jefferson",
    "remainders",
    "quota",
];
/// Different registers of one shape, over which the times are averaged.
const INPUTS: u64 = 4;
/// Repeats, the best of which counts; the two desks take turns.
const REPEATS: u32 = 40;
/// A repeat lasts at least so long: short, so that some escape every interruption.
const SPAN: Duration = Duration::from_micros(200);
/// No more repeats are begun after so long, once there are a few: the reference takes most of a
/// second to go through many states seat by seat.
const ENOUGH: Duration = Duration::from_secs(1);
const FEW: u32 = 3;

/// The library's and the reference's time for one call, in nanoseconds.
type Times = (f64, f64);

/// One problem of a shape: its populations, a leximin register of it, and the longest register
/// that it has.
struct Input {
    house: u64,
    populations: Vec<u64>,
    bytes: Vec<u8>,
    longest: Vec<u8>,
}

fn main() {
    match std::env::args().nth(1).as_deref() {
        None => operations(),
        Some("programs") => programs::time_them(&input(STATES_LIMIT, HOUSE_LIMIT, 1).bytes),
        Some("plain") => programs::be_plain(),
        Some("worst") => worst::time_it(),
        Some("quota") => quota::print_it(),
        Some("sweep") => sweep::print_it(),
        Some("moves") => moves::print_it(),
        Some("clean") => clean::print_it(),
        Some(_) => eprintln!("usage: bench [programs | worst | quota | sweep | moves | clean]"),
    }
}

/// The tables of the operations.
fn operations() {
    let mut shapes = Vec::new();
    for states in STATES {
        for house in HOUSES {
            let inputs: Vec<Input> = (1..=INPUTS)
                .map(|seed| input(states, house, seed))
                .collect();
            shapes.push((states, house, inputs));
        }
    }
    let mut rows: Vec<(String, Vec<Option<Times>>)> = Vec::new();
    for (method, name) in METHODS.iter().enumerate() {
        let times = shapes.iter().map(|(.., inputs)| allotting(method, inputs));
        rows.push((format!("allot, {name}"), times.collect()));
    }
    for (name, seats) in [("seat by seat", 1), ("in one call", u64::MAX)] {
        let times = shapes.iter().map(|(.., inputs)| moving(inputs, seats));
        rows.push((
            format!("open and move to the house, {name}"),
            times.collect(),
        ));
    }
    let ordinary: Register = |input| &input.bytes;
    let longest: Register = |input| &input.longest;
    for (name, register) in [("read", ordinary), ("read, longest lines", longest)] {
        let times = shapes.iter();
        let times = times.map(|(.., inputs)| Some(reading(inputs, register)));
        rows.push((name.into(), times.collect()));
    }
    let of_remainders = "listing, remainders, longest lines";
    for (name, register) in [("listing, leximin", ordinary), (of_remainders, longest)] {
        let times = shapes.iter().map(|(.., inputs)| listing(inputs, register));
        rows.push((name.into(), times.collect()));
    }

    let heads: Vec<String> = shapes
        .iter()
        .map(|(states, house, _)| format!("{states} × {}", commas(*house)))
        .collect();
    println!("Library's time over the reference's, by states × house (below 1 the library is");
    println!("faster; a dash where the house is below the states and the method refuses it).");
    println!("Names have 17 to 19 bytes; the longest lines have names of 32, numbers of 10 digits");
    println!(
        "and CR LF at their end, and {STATES_LIMIT} of them make the longest register there is:\n"
    );
    print_table(&heads, &rows, |(library, reference)| {
        format!("{:.2}", library / reference)
    });
    println!("\nThe library's time for one call, in microseconds:\n");
    print_table(&heads, &rows, |(library, _)| {
        format!("{:.1}", library / 1_000.0)
    });
}

fn print_table(
    heads: &[String],
    rows: &[(String, Vec<Option<Times>>)],
    show: impl Fn(Times) -> String,
) {
    println!("| | {} |", heads.join(" | "));
    println!("|---|{}", "--:|".repeat(heads.len()));
    for (name, times) in rows {
        let cells: Vec<String> = times
            .iter()
            .map(|times| times.map_or("-".to_string(), &show))
            .collect();
        println!("| {name} | {} |", cells.join(" | "));
    }
}

// ---- Inputs

/// A problem with populations spread over three powers of ten.
fn input(states: usize, house: u64, seed: u64) -> Input {
    let populations = families::ordinary(states, house, seed);
    Input {
        house,
        bytes: register(house, &populations),
        longest: longest_register(house, &populations),
        populations,
    }
}

/// A leximin register with names of ordinary length.
fn register(house: u64, populations: &[u64]) -> Vec<u8> {
    let mut text = format!("register,leximin,{house},{}\n", populations.len());
    for (i, population) in populations.iter().enumerate() {
        text += &format!("County of Saint {i},{population}\n");
    }
    text += &format!("total,{}\n", populations.iter().sum::<u64>());
    text.into_bytes()
}

/// The longest register of a problem: the longest method, names of 32 bytes, numbers of 10 digits,
/// and lines that end in two bytes.
fn longest_register(house: u64, populations: &[u64]) -> Vec<u8> {
    let states = populations.len();
    let mut text = format!("register,remainders,{house:010},{states:010}\r\n");
    for (i, population) in populations.iter().enumerate() {
        text += &format!("County of Saint {i:016},{population:010}\r\n");
    }
    text += &format!("total,{:010}\r\n", populations.iter().sum::<u64>());
    text.into_bytes()
}

// ---- Operations

/// Allotting by one method into the same list over and over; none where the method refuses.
fn allotting(method: usize, inputs: &[Input]) -> Option<Times> {
    let library = desk::Method::ALL[method];
    let plain = reference::Method::ALL[method];
    let mut seats = vec![0; inputs[0].populations.len()];
    let mut other = seats.clone();
    for input in inputs {
        let house = input.house;
        let steps = desk::allot(library, house, &input.populations, &mut seats).ok()?;
        let plain = reference::allot(plain, house, &input.populations, &mut other);
        assert_eq!(plain, Ok(steps));
        assert_eq!(seats, other);
    }
    Some(time(
        inputs,
        |input| {
            let populations = black_box(&input.populations);
            desk::allot(library, input.house, populations, &mut seats).is_ok()
        },
        |input| {
            let populations = black_box(&input.populations);
            reference::allot(plain, input.house, populations, &mut other).is_ok()
        },
    ))
}

/// Opening, and moving by so many seats a call until a call moves fewer: by 1 the last call finds the
/// house reached, and by the largest number there is one call. None where opening refuses.
fn moving(inputs: &[Input], seats: u64) -> Option<Times> {
    let library = |input: &Input| {
        let mut placing = desk::Placing::open(black_box(&input.populations), input.house).ok()?;
        while placing.advance(seats).ok()? == seats {}
        Some(placing.seats().to_vec())
    };
    let plain = |input: &Input| {
        let populations = black_box(&input.populations);
        let mut placing = reference::open(populations, input.house).ok()?;
        while placing.advance(seats).ok()? == seats {}
        Some(placing.seats[..populations.len()].to_vec())
    };
    for input in inputs {
        assert_eq!(library(input)?, plain(input)?);
    }
    Some(time(inputs, library, plain))
}

/// One of an input's registers.
type Register = fn(&Input) -> &[u8];

fn reading(inputs: &[Input], register: Register) -> Times {
    for input in inputs {
        let library = desk::read(register(input)).expect("a sound register");
        let plain = reference::read(register(input)).expect("a sound register");
        assert_eq!(library.populations(), plain.populations);
    }
    time(
        inputs,
        |input| black_box(desk::read(black_box(register(input)))).is_ok(),
        |input| black_box(reference::read(black_box(register(input)))).is_ok(),
    )
}

/// Writing listings into the same buffer over and over; none where the method refuses.
fn listing(inputs: &[Input], register: Register) -> Option<Times> {
    let mut out = vec![0; desk::LISTING_ROOM];
    let mut other = out.clone();
    for input in inputs {
        let length = desk::write_listing(register(input), &mut out).ok()?;
        let plain = reference::write_listing(register(input), &mut other);
        assert_eq!(plain, Ok(length));
        assert_eq!(out[..length], other[..length]);
    }
    Some(time(
        inputs,
        |input| desk::write_listing(black_box(register(input)), &mut out).is_ok(),
        |input| reference::write_listing(black_box(register(input)), &mut other).is_ok(),
    ))
}

// ---- Timing

/// The time of one call of each desk: the best of the repeats, averaged over the inputs.
fn time<A, B>(
    inputs: &[Input],
    mut library: impl FnMut(&Input) -> A,
    mut plain: impl FnMut(&Input) -> B,
) -> Times {
    let mut sum = (0.0, 0.0);
    for input in inputs {
        let mut library = || library(input);
        let mut plain = || plain(input);
        let calls = (calls(&mut library), calls(&mut plain));
        let mut best = (f64::INFINITY, f64::INFINITY);
        let start = Instant::now();
        for done in 0..REPEATS {
            if done >= FEW && start.elapsed() > ENOUGH {
                break;
            }
            best.0 = best.0.min(repeat(calls.0, &mut library));
            best.1 = best.1.min(repeat(calls.1, &mut plain));
        }
        sum.0 += best.0;
        sum.1 += best.1;
    }
    (sum.0 / inputs.len() as f64, sum.1 / inputs.len() as f64)
}

/// How many calls a repeat needs to last long enough, tried twice so that one interruption does
/// not settle it.
fn calls<A>(run: &mut impl FnMut() -> A) -> u32 {
    let mut calls = 1;
    loop {
        let one = repeat(calls, run).min(repeat(calls, run));
        if one * calls as f64 >= SPAN.as_nanos() as f64 {
            return calls;
        }
        calls *= 2;
    }
}

/// The time of one call out of so many, in nanoseconds.
fn repeat<A>(calls: u32, run: &mut impl FnMut() -> A) -> f64 {
    let start = Instant::now();
    for _ in 0..calls {
        black_box(run());
    }
    start.elapsed().as_nanos() as f64 / calls as f64
}

#[cfg(test)]
mod tests {
    use super::*;

    #[test]
    fn the_longest_register_is_as_long_as_any() {
        let longest = input(STATES_LIMIT, HOUSE_LIMIT, 1).longest;
        let head = "register,remainders,,".len() + 2 * 10 + 2;
        let line = 32 + ",".len() + 10 + 2;
        let closing = "total,".len() + 10 + 2;
        assert_eq!(longest.len(), head + STATES_LIMIT * line + closing);
    }
}
