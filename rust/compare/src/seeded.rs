//! Seeded inputs of every kind.

use crate::copies;
use crate::damage::{self, Draft};
use crate::growth::{ONE_SEAT_MORE, TWO_POLLS};
use crate::polls::polls;
use crate::problem::{self, HALVES};
use crate::random::Random;
use crate::{placing, Case, METHODS, MOST_STATES};
use reference::{Method, BYTES_LIMIT, HOUSE_LIMIT, SUM_LIMIT};

/// The input with a given number under a seed.
pub fn seeded(seed: u64, number: u64) -> Case {
    let random = &mut Random::new(seed, number);
    match random.below(20) {
        0..=4 => register(random),
        5 => {
            let (first, second) = copies::pair(random);
            Case::Copies { first, second }
        }
        6..=9 => allot(random),
        10..=12 => walk(random),
        13..=15 => moves(random),
        16 | 17 => departure(random),
        18 => one_seat_more(random),
        _ => two_polls(random),
    }
}

fn register(random: &mut Random) -> Case {
    let bytes = match random.below(400) {
        0 => filled(random),
        1 | 2 => many_lines(random),
        _ => damage::register(random),
    };
    around(random, bytes)
}

/// A register case with a place and a room of interest: the listing's length or next to it.
pub fn around(random: &mut Random, bytes: Vec<u8>) -> Case {
    let length = reference::listing(&bytes).map_or(100, |listing| listing.len() as u64);
    let room = match random.below(8) {
        0 => 0,
        1 => random.below(length),
        2 => length - 1,
        3 | 4 => length,
        5 => length + 1,
        _ => length + random.below(100),
    };
    let count = reference::read(&bytes).map_or(3, |register| register.names.len() as u64);
    let place = match random.below(8) {
        0 => count,
        1 => random.wild(),
        2 => count - 1,
        _ => random.below(count),
    };
    Case::Register {
        room: room as usize,
        place: place as usize,
        bytes,
    }
}

/// Bytes about as many as a register may have, most of them in one line or past the closing one.
fn filled(random: &mut Random) -> Vec<u8> {
    let mut bytes = damage::sound(random).bytes();
    let length = about_the_limit(random);
    let filler = random.pick(b"x0\n ,\r");
    let at = match random.below(2) {
        0 => bytes.len(),
        _ => random.place(&bytes),
    };
    bytes.splice(at..at, vec![filler; length - bytes.len()]);
    bytes
}

/// A number of bytes next to the most that a register may have.
fn about_the_limit(random: &mut Random) -> usize {
    BYTES_LIMIT - 1 + random.below(4) as usize
}

/// As many lines of states as a register has room for, each as long as it can be: under a count
/// that is true, or at the limit, so that lines of states stand where the closing line should.
/// It is whole, or has a number of bytes next to the most that a register may have.
fn many_lines(random: &mut Random) -> Vec<u8> {
    let n = match random.below(2) {
        0 => random.from(MOST_STATES - 1, MOST_STATES + 1),
        _ => random.from(MOST_STATES, 1_500),
    };
    let populations = problem::populations(random, n);
    let names = damage::names(damage::LONG_NAMES, populations.len());
    let house = random.from(HOUSE_LIMIT - 1, HOUSE_LIMIT);
    let mut draft = Draft::plain("remainders", house, &names, &populations);
    if random.once_in(2) {
        draft.lines[0][3] = MOST_STATES.to_string().into_bytes();
    }
    draft.widen();
    let mut bytes = draft.bytes();
    if random.once_in(2) {
        let length = about_the_limit(random);
        bytes = bytes.iter().copied().cycle().take(length).collect();
    }
    bytes
}

/// Populations and a house for a call with numbers alone: sound, off in one place, or anything.
fn any_problem(random: &mut Random) -> (Vec<u64>, u64) {
    let (mut populations, mut house) = problem::problem(random);
    match random.below(16) {
        0 => house = random.wild(),
        1 => house = random.below(populations.len() as u64 + 1),
        2 => {
            let at = random.place(&populations);
            populations[at] = random.wild();
        }
        3 => {
            // A sum at the limit or just past it.
            let at = random.place(&populations);
            let others = populations.iter().sum::<u64>() - populations[at];
            populations[at] = SUM_LIMIT + random.below(2) - others;
        }
        4 => {
            let past = MOST_STATES + 1;
            let n = random.pick(&[0, 0, MOST_STATES, past, past + 1, past + 50]);
            populations = (0..n).map(|_| random.from(1, 9)).collect();
        }
        5 => {
            let n = random.below(6);
            populations = (0..n).map(|_| random.wild()).collect();
            house = random.wild();
        }
        _ => (),
    }
    (populations, house)
}

fn allot(random: &mut Random) -> Case {
    let (mut populations, mut house) = any_problem(random);
    let method = match random.below(40) {
        0 => random.wild(),
        1 => random.from(METHODS - 1, METHODS + 1),
        2..=7 => Method::Leximin as u64,
        8..=12 => {
            (populations, house) = problem::equal_remainders(random);
            Method::Remainders as u64
        }
        13..=18 => {
            let method;
            (method, populations, house) = problem::equal_quotients(random);
            method as u64
        }
        19..=21 => {
            (populations, house) = problem::few_sizes(random);
            Method::Quota as u64
        }
        22 | 23 => {
            (populations, house) = problem::house_after_house(random);
            Method::Quota as u64
        }
        _ => random.below(METHODS),
    };
    let n = populations.len();
    let room = match random.below(20) {
        0 => n + 1,
        1 => n.saturating_sub(1),
        2 => 0,
        3 => random.below(MOST_STATES + 50) as usize,
        _ => n,
    };
    Case::Allot {
        method,
        house,
        room,
        populations,
    }
}

fn walk(random: &mut Random) -> Case {
    let (populations, house) = any_problem(random);
    Case::Walk { house, populations }
}

fn moves(random: &mut Random) -> Case {
    let placing = placing::placing(random);
    let asked = placing::numbers(random, &placing);
    Case::Moves {
        placing: Box::new(placing),
        asked,
    }
}

/// A method and a problem to allot twice: mostly a method that keeps a law, mostly a sound problem,
/// and often states that want a seat by the same quotient. At times the house is next to its limit,
/// or it is the number of states or one less.
fn method_and_problem(random: &mut Random, keep: &[Method]) -> (u64, Vec<u64>, u64) {
    let method = random.pick(keep);
    let (method, (populations, mut house)) = match random.below(32) {
        0 => (random.pick(&Method::ALL), any_problem(random)),
        1 | 2 => (Method::Leximin, problem::one_large(random)),
        3 => (Method::Remainders, problem::problem(random)),
        4 => (Method::Remainders, problem::equal_remainders(random)),
        5 => (Method::Remainders, problem::one_large(random)),
        6 => (Method::Quota, problem::few_sizes(random)),
        7 | 8 => (Method::Quota, problem::one_large(random)),
        9..=14 => {
            let (method, populations, house) = problem::equal_quotients(random);
            (method, (populations, house))
        }
        15..=17 => (method, problem::few_sizes(random)),
        18 => (method, problem::equal_remainders(random)),
        19 => (method, problem::house_after_house(random)),
        20 | 21 => (method, problem::one_large(random)),
        22..=25 => (method, any_problem(random)),
        _ => (method, problem::problem(random)),
    };
    match random.below(60) {
        0 => house = random.from(HOUSE_LIMIT - 2, HOUSE_LIMIT + 1),
        1..=3 => house = (populations.len() as u64 + random.below(2)).saturating_sub(1),
        _ => (),
    }
    let method = match random.below(40) {
        0 => random.pick(&[METHODS, METHODS + 1, u64::MAX]),
        _ => method as u64,
    };
    (method, populations, house)
}

/// A house and one seat more.
fn one_seat_more(random: &mut Random) -> Case {
    let (method, populations, house) = method_and_problem(random, &ONE_SEAT_MORE);
    Case::Growth {
        method,
        house,
        populations,
    }
}

/// Two polls at one house; at times not of as many states.
fn two_polls(random: &mut Random) -> Case {
    let (method, populations, house) = method_and_problem(random, &TWO_POLLS);
    let (before, mut after) = match reference::check_problem(&populations, house) {
        Ok(()) => polls(random, &populations, house),
        Err(_) => {
            let counts = populations.iter().map(|_| random.from(1, 9)).collect();
            (populations, counts)
        }
    };
    if random.once_in(50) {
        after.pop();
    }
    Case::Polls {
        method,
        house,
        before,
        after,
    }
}

/// A departure: anything, sound, at a half, or at the edge of a mark.
fn departure(random: &mut Random) -> Case {
    let (seats, house) = seats_of_house(random);
    let most = random.pick(&[50, 100_000, SUM_LIMIT]);
    let (population, seats, total, house) = match random.below(12) {
        0 => (random.wild(), random.wild(), random.wild(), random.wild()),
        1 | 2 => {
            let total = random.pick(&[most, SUM_LIMIT, SUM_LIMIT + 1, 0, 1]);
            let population = random.pick(&[0, 1, total, total + 1]);
            (population, seats + random.below(2), total, house)
        }
        3 => {
            // The total is a multiple of the halves, so that departures of an odd number abound.
            let total = HALVES * random.from(1, 6);
            (random.from(1, total), seats, total, house)
        }
        4 | 5 => {
            // A share of 9, 11, 8.5 or 11.5 tenths of the seats, or next to it.
            let seats = seats.max(1);
            let factor = random.from(1, (SUM_LIMIT / (20 * house)).min(100_000));
            let population = random.pick(&[17, 18, 20, 22, 23]) * factor * seats;
            let population = population + random.below(3) - 1;
            (population, seats, 20 * factor * house, house)
        }
        6..=9 => at_halves(random),
        _ => {
            let total = random.from(1, most);
            (random.from(1, total), seats, total, house)
        }
    };
    Case::Departure {
        population,
        seats,
        total,
        house,
    }
}

/// Seats out of a house: mostly a small one, at times large, the limit or just past it.
fn seats_of_house(random: &mut Random) -> (u64, u64) {
    let house = match random.below(16) {
        0 => random.pick(&[HOUSE_LIMIT - 1, HOUSE_LIMIT, HOUSE_LIMIT + 1]),
        1..=3 => random.from(1, HOUSE_LIMIT),
        _ => random.from(1, 12),
    };
    (random.below(house + 1), house)
}

/// Population, seats, total and house of a state whose share of the house, p × H / P, over its
/// seats is a whole number of halves of a thousandth of a per cent; at times the state has a voter
/// more or fewer.
fn at_halves(random: &mut Random) -> (u64, u64, u64, u64) {
    loop {
        let (seats, house, halves) = seats_and_halves(random);
        if let Some((population, total)) = solved(random, seats, house, halves) {
            let population = population + random.pick(&[0, 1, 1, 2]) - 1;
            return (population, seats, total, house);
        }
    }
}

/// Seats, a house, and the halves that the share over the seats is to be.
fn seats_and_halves(random: &mut Random) -> (u64, u64, u64) {
    let (seats, house) = seats_of_house(random);
    let seats = seats.max(1);
    let large = random.from(HOUSE_LIMIT - 3_000, HOUSE_LIMIT);
    match random.below(6) {
        0..=2 => (seats, house, random.from(HALVES - 3, HALVES + 3)),
        3 => (seats, house, random.from(1, house * HALVES / seats)),
        // Few seats and most of the voters, or most of the seats and few voters: p × H − a × P
        // times the scale passes 63 bits if the total is near its limit. There are such totals
        // where the halves are a multiple of 5, which cancels out.
        4 => {
            let seats = random.from(1, 3);
            let fives = large * HALVES / seats / 5;
            (seats, large, 5 * random.from(fives - fives / 10, fives))
        }
        _ => {
            let seats = large - random.below(3);
            (seats, large, 5 * random.from(1, HALVES / 50))
        }
    }
}

/// A population p and a total P for which p × H over a × P is the halves over those of one whole,
/// if the limit of the total allows any: a small total, the largest, or one between.
fn solved(random: &mut Random, seats: u64, house: u64, halves: u64) -> Option<(u64, u64)> {
    let (over, under) = (seats * halves, house * HALVES);
    let common = common_divisor(over, under);
    let (over, under) = (over / common, under / common);
    let most = SUM_LIMIT / under;
    if most == 0 {
        return None;
    }
    let factor = match random.below(3) {
        0 => random.from(1, most.min(10)),
        1 => random.from(1, most),
        _ => most,
    };
    Some((over * factor, under * factor))
}

/// The greatest common divisor, by Euclid's rule.
pub fn common_divisor(a: u64, b: u64) -> u64 {
    if b == 0 {
        a
    } else {
        common_divisor(b, a % b)
    }
}
