//! Placings to be moved, genuine ones from any place on the way and forged ones, and the numbers of
//! seats to move them by.

use crate::problem;
use crate::random::Random;
use reference::{open, way, Placing, STATES_LIMIT};

/// A placing at its start, on its way or at the house, forged as often as not.
pub fn placing(random: &mut Random) -> Placing {
    let mut placing = genuine(random);
    if random.once_in(2) {
        return placing;
    }
    forge(random, &mut placing);
    if random.once_in(8) {
        forge(random, &mut placing);
    }
    placing
}

/// An opened placing after some of its steps, or none.
fn genuine(random: &mut Random) -> Placing {
    let (populations, house) = problem_with_way(random);
    let opened = open(&populations, house).expect("a sound problem");
    let gap = opened.total.abs_diff(house);
    let steps = match random.below(6) {
        0 => 0,
        1 => gap,
        _ => random.below(gap + 1),
    };
    let mut on_the_way = way(&populations, house).expect("a sound problem");
    on_the_way
        .nth(steps as usize)
        .expect("a step before the house")
}

/// Populations and a house that is two seats or more away from the start, if one of some tries is:
/// most problems have a shorter way, on which moves can hardly go wrong.
fn problem_with_way(random: &mut Random) -> (Vec<u64>, u64) {
    let (mut populations, mut house) = problem::problem(random);
    for _ in 0..3 {
        let opened = open(&populations, house).expect("a sound problem");
        if opened.total.abs_diff(house) < 2 {
            (populations, house) = problem::problem(random);
        }
    }
    (populations, house)
}

/// Alters one thing that makes a placing foreign, most of the time.
fn forge(random: &mut Random, placing: &mut Placing) {
    let n = (placing.states as usize).clamp(1, STATES_LIMIT);
    let (i, j) = (
        random.below(n as u64) as usize,
        random.below(n as u64) as usize,
    );
    match random.below(19) {
        0 => placing.total = placing.total.wrapping_add(1),
        1 => placing.total = placing.total.wrapping_sub(1),
        2 => placing.steps = placing.steps.wrapping_add(random.from(1, 3)),
        3 => placing.steps = placing.steps.wrapping_sub(1),
        4 => placing.steps = random.wild(),
        5 => placing.total = placing.house,
        6 => swap_equal_states(placing, n),
        7 => placing.seats.swap(i, j),
        8 => {
            placing.seats[i] = placing.seats[i].wrapping_add(1);
            placing.seats[j] = placing.seats[j].wrapping_sub(1);
        }
        9 => placing.seats[i] = random.wild(),
        10 => placing.populations[i] = random.wild(),
        11 => placing.populations.swap(i, j),
        12 => placing.house = random.wild(),
        13 => placing.house = placing.house.wrapping_add(1),
        14 => {
            let limit = STATES_LIMIT as u64;
            placing.states = random.pick(&[0, limit + 1, limit + 2, limit + 50, 1 << 32, u64::MAX]);
        }
        15 => placing.states = placing.states.wrapping_add(random.pick(&[1, u64::MAX])),
        16 => {
            let past = random.from(n as u64 - 1, STATES_LIMIT as u64 - 1) as usize;
            let list = random.pick(&[0, 1]);
            let junk = random.wild();
            [&mut placing.seats, &mut placing.populations][list][past] ^= junk;
        }
        17 => feign(random, placing),
        _ => *placing = all(random.pick(&[0, 0, 1, u64::MAX])),
    }
}

/// The same number in every place.
fn all(number: u64) -> Placing {
    Placing {
        states: number,
        house: number,
        total: number,
        steps: number,
        populations: [number; STATES_LIMIT],
        seats: [number; STATES_LIMIT],
    }
}

/// Swaps the seats of two states with equal populations and different seats, if there are two.
fn swap_equal_states(placing: &mut Placing, n: usize) {
    for i in 0..n {
        for j in i + 1..n {
            let equal = placing.populations[i] == placing.populations[j];
            if equal && placing.seats[i] != placing.seats[j] {
                placing.seats.swap(i, j);
                return;
            }
        }
    }
}

/// A seat moved to or from a state of chance, with total and steps to suit.
fn feign(random: &mut Random, placing: &mut Placing) {
    let i = random.below(placing.states.clamp(1, STATES_LIMIT as u64)) as usize;
    let step = if placing.total < placing.house {
        1
    } else {
        u64::MAX
    };
    placing.seats[i] = placing.seats[i].wrapping_add(step);
    placing.total = placing.total.wrapping_add(step);
    placing.steps = placing.steps.wrapping_add(1);
}

/// A placing of more states is moved by two numbers at most: with each the plain desk goes its way
/// from the opening again, which takes long.
const FEW_STATES: u64 = 40;

/// Numbers to move a placing by, one after the other: none to six of them.
pub fn numbers(random: &mut Random, placing: &Placing) -> Vec<u64> {
    let most = if placing.states <= FEW_STATES { 6 } else { 2 };
    let mut left = placing.total.abs_diff(placing.house);
    let mut numbers = Vec::new();
    for _ in 0..random.below(most + 1) {
        let seats = number(random, left);
        left = left.saturating_sub(seats);
        numbers.push(seats);
    }
    if numbers.len() > 1 && random.once_in(8) {
        // Their sum is the largest number, or just past it.
        let first = random.wild();
        numbers[0] = first;
        numbers[1] = (u64::MAX - first).saturating_add(random.below(2));
    }
    numbers
}

/// A number of seats: none, few, some of those that are left to the house, just so many or next to
/// it, or far too many, at times with nothing in the lower half of their bits.
fn number(random: &mut Random, left: u64) -> u64 {
    match random.below(14) {
        0 | 1 => 0,
        2 | 3 => 1,
        4 => random.from(2, 5),
        5..=7 => random.below(left.saturating_add(1)),
        8 => left,
        9 => left.saturating_sub(1),
        10 => left.saturating_add(1),
        11 => u64::MAX,
        12 => random.bits(32) << 32,
        _ => random.wild(),
    }
}
