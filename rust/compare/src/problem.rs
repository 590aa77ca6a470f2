//! Sound problems for allotting: populations and a house, with a liking for equal departures,
//! equal quotients, equal remainders, whole shares, departures next to zero and the limits.

use crate::random::Random;
use crate::{DIVISOR_METHODS, MOST_STATES};
use reference::{Method, HOUSE_LIMIT, SHOWN_SCALE, SUM_LIMIT};

/// A number of states: mostly few, at times many or the limit.
pub fn states(random: &mut Random) -> u64 {
    match random.below(50) {
        0 => random.pick(&[MOST_STATES - 1, MOST_STATES]),
        1..=3 => random.from(1, MOST_STATES),
        4..=15 => random.from(1, 40),
        _ => random.from(1, 7),
    }
}

/// Populations and a house between the limits, the house not below the number of states.
pub fn problem(random: &mut Random) -> (Vec<u64>, u64) {
    if random.once_in(6) {
        return equally_near(random);
    }
    let n = states(random);
    let populations = populations(random, n);
    let house = house(random, n);
    (populations, house)
}

/// A house not below the number of states: mostly near it, at times large or the limit.
fn house(random: &mut Random, n: u64) -> u64 {
    match random.below(40) {
        0 => random.pick(&[HOUSE_LIMIT - 1, HOUSE_LIMIT]),
        1 | 2 => random.from(n, HOUSE_LIMIT),
        3..=5 => random.from(n, n + 500),
        6..=9 => n + random.below(2),
        _ => random.from(n, 4 * n + 3),
    }
}

/// Populations of one of several makes, whose sum is within its limit.
pub fn populations(random: &mut Random, n: u64) -> Vec<u64> {
    let most = SUM_LIMIT / n;
    let each = |random: &mut Random, make: &mut dyn FnMut(&mut Random) -> u64| -> Vec<u64> {
        (0..n).map(|_| make(random)).collect()
    };
    match random.below(9) {
        0 => each(random, &mut |r| r.from(1, 4)),
        1 => each(random, &mut |r| r.from(1, 30)),
        2 => {
            let one = random.from(1, most);
            each(random, &mut |_| one)
        }
        3 => {
            let unit = (1 + random.bits(20)).min(most / 6);
            each(random, &mut |r| unit * r.from(1, 6))
        }
        4 => each(random, &mut |r| (1 + r.bits(24)).min(most)),
        5 => signposts(random, n),
        6 => {
            let mut list = each(random, &mut |r| (1 + r.bits(24)).min(most));
            raise_to(random, &mut list, SUM_LIMIT);
            list
        }
        7 => {
            let mut list = each(random, &mut |r| r.from(1, 2));
            let sum = random.from(2 * n, SUM_LIMIT);
            raise_to(random, &mut list, sum);
            list
        }
        _ => {
            let mut list = each(random, &mut |r| {
                r.pick(&[84, 105, 126, 133, 140, 210, 238, 252])
            });
            let factor = random.from(1, 1_000);
            list.iter_mut().for_each(|p| *p *= factor);
            list
        }
    }
}

/// Raises one population so that the sum is a given one, if it is not larger already.
fn raise_to(random: &mut Random, list: &mut [u64], sum: u64) {
    let at = random.place(list);
    list[at] += sum.saturating_sub(list.iter().sum());
}

/// Seats a and counts s with a(a + 1) = 2s²: states with such counts have equal quotients there
/// under Hill.
const HILL_SEATS: [(u64, u64); 6] = [
    (1, 1),
    (8, 6),
    (49, 35),
    (288, 204),
    (1_681, 1_189),
    (9_800, 6_930),
];

/// Populations at the signposts of one divisor method, so that quotients of different states are
/// equal at different seats.
fn signposts(random: &mut Random, n: u64) -> Vec<u64> {
    let row = random.below(5);
    let mut signpost = || {
        let a = random.from(1, 6);
        match row {
            0 => a,
            1 => 45_045 * 2 * a * (a + 1) / (2 * a + 1),
            2 => random.pick(&HILL_SEATS[..4]).1,
            3 => 2 * a + 1,
            _ => 10 * a,
        }
    };
    let list: Vec<u64> = (0..n).map(|_| signpost()).collect();
    let most = SUM_LIMIT / list.iter().sum::<u64>();
    let factor = random.from(1, most.min(40));
    list.iter().map(|p| p * factor).collect()
}

/// A divisor method, seats that leave room in the largest house for one more each, and populations
/// under which all states want that seat by the same quotient.
fn same_quotient(random: &mut Random) -> (Method, Vec<u64>, Vec<u64>) {
    let n = states(random).max(2);
    let most_seats = HOUSE_LIMIT / n - 1;
    let bits = random.from(1, 15);
    let method = random.pick(&DIVISOR_METHODS);
    // Under Dean each 2a + 1 is 1, 3, 5 or 15 times one odd number, and 15 times that number is a
    // multiple of all.
    let odd = 2 * random.from(1, (most_seats - 7) / 15) + 1;
    let (seats, counts): (Vec<u64>, Vec<u64>) = (0..n)
        .map(|_| {
            let a = (1 + random.bits(bits)).min(most_seats);
            match method {
                Method::Adams => (a, a),
                Method::Webster => (a, 2 * a + 1),
                Method::Jefferson => (a, a + 1),
                Method::Hill => *HILL_SEATS[..=random.below(6) as usize]
                    .iter()
                    .rfind(|(seats, _)| *seats <= most_seats)
                    .expect("one seat"),
                Method::Dean => {
                    let times = random.pick(&[1, 3, 5, 15]);
                    let a = (times * odd - 1) / 2;
                    (a, 30 / times * a * (a + 1))
                }
                Method::Leximin | Method::Remainders | Method::Quota => {
                    unreachable!("not a divisor method")
                }
            }
        })
        .unzip();
    let most_unit = (SUM_LIMIT - 1) / counts.iter().sum::<u64>();
    let unit = match random.below(3) {
        0 => 1,
        1 => random.from(1, most_unit),
        _ => most_unit,
    };
    (
        method,
        seats,
        counts.iter().map(|count| unit * count).collect(),
    )
}

/// A divisor method and states that want one more seat by the same quotient, some of which have
/// it: those that come first in the register. At times one of them has a voter more or less.
pub fn equal_quotients(random: &mut Random) -> (Method, Vec<u64>, u64) {
    let (method, seats, mut populations) = same_quotient(random);
    let house = seats.iter().sum::<u64>() + random.below(populations.len() as u64 + 1);
    if random.once_in(2) {
        let at = random.place(&populations);
        populations[at] = (populations[at] + random.pick(&[0, 2]) - 1).max(1);
    }
    (method, populations, house)
}

/// States whose population is as near to one number of seats as to the next, and one more that
/// makes the average whole; the house is off its natural size at times.
fn equally_near(random: &mut Random) -> (Vec<u64>, u64) {
    const UNIT: u64 = 45_045; // divided by 3, 5, 7, 9, 11 and 13
    let count = random.from(1, 6);
    let mut populations: Vec<u64> = (0..count)
        .map(|_| {
            let a = random.from(1, 6);
            match random.below(5) {
                0 => UNIT * a,
                1 => UNIT * a + UNIT / 9,
                _ => UNIT * 2 * a * (a + 1) / (2 * a + 1),
            }
        })
        .collect();
    let sum: u64 = populations.iter().sum();
    let at = random.below(count + 1) as usize;
    populations.insert(at, UNIT - sum % UNIT + UNIT * random.below(2));
    let natural = populations.iter().sum::<u64>() / UNIT;
    let n = populations.len() as u64;
    let house = match random.below(4) {
        0 => natural + 1,
        1 => natural.saturating_sub(1),
        _ => natural,
    };
    (populations, house.max(n))
}

/// The halves of a thousandth of a per cent in one whole. A departure of an odd number of them is
/// as near to one that can be shown as to the next.
pub const HALVES: u64 = 2 * SHOWN_SCALE as u64;

/// States up to three halves of a thousandth of a per cent above or below whole numbers of seats,
/// or a voter beside that, and one more that makes the average whole. Methods give them those seats,
/// so that a listing shows departures rounded from true halves and from less, on either side of
/// zero.
pub fn nearly_whole(random: &mut Random) -> (Vec<u64>, u64) {
    let n = states(random).max(2);
    let most = random.pick(&[1, 6, 25]);
    let mut seats: Vec<u64> = (0..n).map(|_| random.from(1, most)).collect();
    let house: u64 = seats.iter().sum();
    // The voters of a seat are a multiple of the halves: so many voters are one half.
    let half = match random.below(3) {
        0 => 1,
        1 => random.from(1, SUM_LIMIT / (HALVES * house)),
        _ => SUM_LIMIT / (HALVES * house),
    };
    seats.pop();
    let mut populations: Vec<u64> = seats
        .iter()
        .map(|a| a * half * random.from(HALVES - 3, HALVES + 3) + random.pick(&[0, 1, 1, 2]) - 1)
        .collect();
    let last = house * half * HALVES - populations.iter().sum::<u64>();
    let at = random.below(n) as usize;
    populations.insert(at, last);
    (populations, house)
}

/// States of different populations that have one of two remainders of p × H by P, and one more
/// that makes the sum: P is a unit times a divisor of the house, so that populations a multiple of
/// the unit apart have the same remainder.
pub fn equal_remainders(random: &mut Random) -> (Vec<u64>, u64) {
    let n = states(random).max(3);
    let most = random.from(1, 4);
    // The parts of the sum are more than all populations but one can have.
    let parts = (most + 1) * n + random.below(20);
    let unit = match random.below(3) {
        0 => SUM_LIMIT / parts,
        1 => random.from(1, SUM_LIMIT / parts),
        _ => random.from(1, 12),
    };
    let classes = [random.from(1, unit), random.from(1, unit)];
    let mut populations: Vec<u64> = (1..n)
        .map(|_| random.pick(&classes) + unit * random.below(most + 1))
        .collect();
    let last = unit * parts - populations.iter().sum::<u64>();
    let at = random.below(n) as usize;
    populations.insert(at, last);
    let house = match random.below(2) {
        0 => parts,
        _ => parts * random.from(1, HOUSE_LIMIT / parts),
    };
    (populations, house)
}

/// States of a few sizes and a house up to the first where every share p × H / P is whole, or at
/// such a house or beside it: under the quota method many states want a seat by the same quotient,
/// and many reach their share at the same seat. Often one of them is as large as the others
/// together, or some times as large, and only the quota keeps it from further seats; at times one
/// has a voter more or less.
pub fn few_sizes(random: &mut Random) -> (Vec<u64>, u64) {
    let n = states(random);
    let most = random.pick(&[1, 2, 3, 6, 12]);
    let mut counts: Vec<u64> = (0..n).map(|_| random.from(1, most)).collect();
    // The large state's share is whole at every house that is a multiple of this.
    let mut parts = 1;
    if n > 1 && random.once_in(2) {
        let at = random.place(&counts);
        let others = counts.iter().sum::<u64>() - counts[at];
        parts = random.from(2, 5);
        counts[at] = others * (parts - 1);
    }
    let sum: u64 = counts.iter().sum();
    let most_unit = (SUM_LIMIT - 1) / sum;
    let unit = match random.below(3) {
        0 => 1,
        1 => random.from(1, most_unit),
        _ => most_unit,
    };
    let mut populations: Vec<u64> = counts.iter().map(|count| unit * count).collect();
    if random.once_in(4) {
        let at = random.place(&populations);
        populations[at] = (populations[at] + random.pick(&[0, 2]) - 1).max(1);
    }
    // All shares are whole where the house is a multiple of the counts' sum.
    let rounds = random.below(HOUSE_LIMIT / sum + 1).min(random.bits(4));
    let house = match random.below(5) {
        0 => random.from(1, sum),
        1 | 2 => parts * random.from(1, sum / parts),
        3 => sum * rounds + random.below(n + 1),
        _ => (sum * rounds + random.below(5)).saturating_sub(2),
    };
    (populations, house.clamp(1, HOUSE_LIMIT))
}

/// Some states that are equal or nearly so, and one as large as each of them or all together, or
/// some times as large. Here the methods that are excepted from a law of growth break it more often
/// than elsewhere.
pub fn one_large(random: &mut Random) -> (Vec<u64>, u64) {
    let others = random.from(2, 12);
    let (least, most) = random.pick(&[(1, 4), (60, 63), (900, 930)]);
    let mut populations: Vec<u64> = (0..others).map(|_| random.from(least, most)).collect();
    let large = random.pick(&[1, others]) * random.from(least, 5 * most);
    let at = random.below(others + 1) as usize;
    populations.insert(at, large);
    let n = others + 1;
    (populations, random.from(n, 6 * n))
}

/// The lists of populations, the same in every run.
const LISTS: u64 = 16;
/// The houses of such a list, one after another.
const HOUSES: u64 = 20;

/// One of the lists at one of its houses. A long run gives each of them each of these houses, so that a
/// seat that goes astray is seen where it is given, and not only where it is missing later.
pub fn house_after_house(random: &mut Random) -> (Vec<u64>, u64) {
    let list = &mut Random::new(0, random.below(LISTS));
    let n = states(list);
    let populations = populations(list, n);
    let first = match list.below(2) {
        0 => 1,
        _ => house(list, n).min(HOUSE_LIMIT + 1 - HOUSES),
    };
    (populations, first + random.below(HOUSES))
}

#[cfg(test)]
mod tests {
    use super::*;
    use reference::allot;

    #[test]
    fn of_equal_quotients_the_first_have_the_seats() {
        let mut methods = Vec::new();
        for input in 0..400 {
            let (method, mut expected, populations) = same_quotient(&mut Random::new(1, input));
            let n = populations.len();
            let given = n / 2;
            let house = expected.iter().sum::<u64>() + given as u64;
            expected[..given].iter_mut().for_each(|seats| *seats += 1);
            let mut seats = vec![0; n];
            allot(method, house, &populations, &mut seats).unwrap();
            assert_eq!(seats, expected, "{method:?} {populations:?}");
            if !methods.contains(&method) {
                methods.push(method);
            }
        }
        assert_eq!(methods.len(), DIVISOR_METHODS.len());
    }

    #[test]
    fn quota_accepts_few_sizes_and_every_house_of_a_list() {
        let mut equal = 0;
        for input in 0..400 {
            let (populations, house) = few_sizes(&mut Random::new(1, input));
            let mut seats = vec![0; populations.len()];
            allot(Method::Quota, house, &populations, &mut seats).unwrap();
            let twice = |i: usize| populations[..i].contains(&populations[i]);
            equal += (0..populations.len()).any(twice) as u32;
            let (populations, house) = house_after_house(&mut Random::new(1, input));
            let mut seats = vec![0; populations.len()];
            allot(Method::Quota, house, &populations, &mut seats).unwrap();
        }
        assert!(equal > 200, "{equal}");
    }

    #[test]
    fn every_method_gives_nearly_whole_shares_their_seats() {
        for input in 0..100 {
            let (populations, house) = nearly_whole(&mut Random::new(1, input));
            let average = populations.iter().sum::<u64>() / house;
            assert_eq!(average % HALVES, 0);
            let expected: Vec<u64> = populations
                .iter()
                .map(|p| (p + average / 2) / average)
                .collect();
            for method in Method::ALL {
                let mut seats = vec![0; populations.len()];
                allot(method, house, &populations, &mut seats).unwrap();
                assert_eq!(seats, expected, "{method:?} {populations:?}");
            }
        }
    }
}
