//! A placing moved to its house in one call beside allotting that house under leximin, which goes the
//! same way from the same start but need not see first whether a placing is genuine. Prints Markdown
//! for docs/BENCHMARKS.md.

use crate::families::{Family, ALL_EQUAL, ONES_AND_GIANT, ORDINARY};
use crate::plain::{commas, micros};
use crate::{calls, repeat};
use desk::ffi;
use reference::STATES_LIMIT;
use std::hint::black_box;

const STATES: [usize; 5] = [5, 10, 50, 250, STATES_LIMIT];
/// Repeats of each program, the best of which counts; they take turns.
const REPEATS: u32 = 60;

/// The programs in the order of their times.
const PROGRAMS: [&str; 3] = ["allot", "move", "open and move"];

/// A kind of way to the house: populations, and a house for a number of states.
struct Shape {
    name: &'static str,
    family: Family,
    house: fn(u64) -> u64,
}

const SHAPES: [Shape; 6] = [
    Shape {
        name: "ordinary, few seats a state",
        family: ORDINARY,
        house: |n| n * 5 / 4,
    },
    Shape {
        name: "ordinary, many seats a state",
        family: ORDINARY,
        house: |n| n * 37,
    },
    Shape {
        name: "the longest walk",
        family: ONES_AND_GIANT,
        house: |n| n,
    },
    Shape {
        name: "ties, seats placed",
        family: ALL_EQUAL,
        house: |n| n * 5 / 4,
    },
    // The first house from which equal states start with 2 seats each.
    Shape {
        name: "ties, seats withdrawn",
        family: ALL_EQUAL,
        house: |n| n * 4 / 3 + 1,
    },
    Shape {
        name: "nothing to move",
        family: ALL_EQUAL,
        house: |n| n * 2,
    },
];

pub fn print_it() {
    println!("To the house in one call, by populations, states and house: the seats moved, the library's");
    println!(
        "times in µs for allotting under leximin, for moving a placing that is opened already, and"
    );
    println!("for opening and moving it, and the last two over the first:\n");
    println!(
        "| | states | house | moved | {} | move over allot | open and move over allot |",
        PROGRAMS.join(" | ")
    );
    println!("|---|{}", "--:|".repeat(PROGRAMS.len() + 5));
    for shape in SHAPES {
        for states in STATES {
            let populations = shape.family.populations(states);
            let house = (shape.house)(states as u64);
            let moved = check(house, &populations);
            let [allot, moving, both] = times(house, &populations);
            println!(
                "| {} | {states} | {} | {moved} | {} | {} | {} | {:.2} | {:.2} |",
                shape.name,
                commas(house),
                micros(allot),
                micros(moving),
                micros(both),
                moving / allot,
                both / allot
            );
        }
    }
}

/// An opened placing, with every number of it open to be put back.
fn open(house: u64, populations: &[u64]) -> ffi::Placing {
    // SAFETY: pointer and length are those of one slice, which is only read.
    let placed = unsafe { ffi::desk_open(populations.as_ptr(), populations.len(), house) };
    assert_eq!(placed.refusal, 0);
    placed.placing
}

/// Moves a placing to its house in one call; hands back how many seats were moved.
fn to_the_house(placing: &mut ffi::Placing) -> u64 {
    // SAFETY: the placing is lent for this call alone.
    unsafe { ffi::desk_move(placing, u64::MAX) }.moved
}

fn allot(house: u64, populations: &[u64], seats: &mut [u64]) -> u64 {
    desk::allot(desk::Method::Leximin, house, populations, seats).expect("a sound problem")
}

/// Panics unless moving and allotting end with the same seats; hands back how many were moved.
fn check(house: u64, populations: &[u64]) -> u64 {
    let mut placing = open(house, populations);
    let mut seats = vec![0; populations.len()];
    let moved = to_the_house(&mut placing);
    assert_eq!(moved, allot(house, populations, &mut seats));
    assert_eq!(placing.seats[..seats.len()], seats);
    moved
}

/// The best time of each program, in nanoseconds. Before each move the placing is put back to its
/// opening, which is to copy the seats of its states.
fn times(house: u64, populations: &[u64]) -> [f64; PROGRAMS.len()] {
    let n = populations.len();
    let mut seats = vec![0; n];
    let opened = open(house, populations);
    let mut placing = opened;
    let mut runs: [Box<dyn FnMut() -> u64 + '_>; PROGRAMS.len()] = [
        Box::new(|| allot(house, black_box(populations), black_box(&mut seats))),
        Box::new(|| {
            placing.total = opened.total;
            placing.steps = opened.steps;
            placing.seats[..n].copy_from_slice(&opened.seats[..n]);
            to_the_house(black_box(&mut placing))
        }),
        Box::new(|| to_the_house(&mut open(house, black_box(populations)))),
    ];
    let counts = runs.each_mut().map(calls);
    let mut best = [f64::INFINITY; PROGRAMS.len()];
    for _ in 0..REPEATS {
        for (place, run) in runs.iter_mut().enumerate() {
            best[place] = best[place].min(repeat(counts[place], run));
        }
    }
    best
}

#[cfg(test)]
mod tests {
    use super::*;

    #[test]
    fn the_shapes_have_the_ways_that_they_are_named_for() {
        for shape in SHAPES {
            for states in STATES {
                let populations = shape.family.populations(states);
                let n = states as u64;
                let moved = check((shape.house)(n), &populations);
                match shape.name {
                    "the longest walk" => assert_eq!(moved, n - 1),
                    "ties, seats placed" => assert_eq!(moved, n / 4),
                    "ties, seats withdrawn" => assert_eq!(moved, 2 * n - (n * 4 / 3 + 1)),
                    "nothing to move" => assert_eq!(moved, 0),
                    _ => assert!(moved < n),
                }
            }
        }
    }
}
