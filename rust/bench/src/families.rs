//! Kinds of populations: ordinary ones, and families in which many claims are equal or nearly so;
//! and the houses tried with the latter.

use reference::{Method, HOUSE_LIMIT, STATES_LIMIT, SUM_LIMIT};

/// The number of states at which the worst is looked for.
pub const STATES: usize = STATES_LIMIT;

/// The houses tried with a method at a number of states, in rising order. Most are even shares of
/// it. At the others rounding equal shares leaves most seats to move under one method or another:
/// they lie at the first house from 4/3, √2 and 3/2 seats a state on, where Dean and leximin, Hill
/// and Webster turn to rounding up, and beside whole numbers of seats, where Adams rounds up by
/// nearly a seat a state and Jefferson down. The quota method, whose cost grows with the house, is
/// tried up to the largest one.
pub fn houses(method: Method, states: u64) -> Vec<u64> {
    // In sixtieths of the states.
    let even = [
        10, 15, 20, 24, 30, 40, 48, 60, 72, 96, 108, 120, 144, 175, 240, 300, 360, 420, 504,
    ];
    // 99/70 stands for √2.
    let turns = [(4, 3), (99, 70), (3, 2), (7, 2)];
    let mut houses = vec![states - 1, states + 1, 2 * states - 1, 3 * states - 1];
    houses.extend(even.map(|share| states * share / 60));
    houses.extend(turns.map(|(over, under)| (states * over).div_ceil(under)));
    if method == Method::Quota {
        houses.extend([600, 1_000, 1_500, 2_250].map(|share| states * share / 60));
    }
    houses.sort();
    houses
}

/// A way to make populations for any number of states.
pub struct Family {
    pub name: &'static str,
    make: fn(usize) -> Vec<u64>,
}

impl Family {
    pub fn populations(&self, states: usize) -> Vec<u64> {
        (self.make)(states)
    }
}

pub const ORDINARY: Family = Family {
    name: "ordinary, spread over three powers of ten",
    make: |n| ordinary(n, HOUSE_LIMIT, 1),
};
pub const ALL_EQUAL: Family = Family {
    name: "all equal",
    make: |n| in_turn(n, &[1_000_000]),
};
pub const NEAR_PAIRS: Family = Family {
    name: "p and p + 1 in turn",
    make: |n| in_turn(n, &[1_000_000, 1_000_001]),
};
pub const NEARLY_EQUAL: Family = Family {
    name: "p + i",
    make: |n| (0..n as u64).map(|i| 1_000_000 + i).collect(),
};
pub const THREE_SIZES: Family = Family {
    name: "three sizes, 1 : 2 : 3",
    make: |n| in_turn(n, &[1_000, 2_000, 3_000]),
};
pub const RANDOM_SIZES: Family = Family {
    name: "nine sizes, 1 : 2 to 9, at random",
    make: |n| {
        let mut random = random(1);
        (0..n).map(|_| (1 + random() % 9) * 1_000).collect()
    },
};
/// At a house of as many seats as there are states, the longest way that we know from leximin's start.
pub const ONES_AND_GIANT: Family = Family {
    name: "ones and a giant",
    make: |n| with_giant(n, 1, SUM_LIMIT - (n as u64 - 1)),
};
pub const GIANT: Family = Family {
    name: "thousands and a giant",
    make: |n| with_giant(n, 1_000, SUM_LIMIT - 1_000 * (n as u64 - 1)),
};

/// The kinds of populations that are swept through all houses, and timed at the largest one.
pub const KINDS: [Family; 7] = [
    ORDINARY,
    ALL_EQUAL,
    NEAR_PAIRS,
    NEARLY_EQUAL,
    THREE_SIZES,
    RANDOM_SIZES,
    GIANT,
];

/// The families with ties.
pub const FAMILIES: [Family; 12] = [
    ALL_EQUAL,
    NEAR_PAIRS,
    NEARLY_EQUAL,
    Family {
        name: "two sizes, 1 : 2",
        make: |n| in_turn(n, &[1_000, 2_000]),
    },
    Family {
        name: "two sizes, 2 : 3",
        make: |n| in_turn(n, &[2_000, 3_000]),
    },
    THREE_SIZES,
    // Four units a state: remainders are equal and populations differ at every house that shares a
    // large divisor with the units.
    Family {
        name: "four sizes, 1 : 7 : 3 : 5",
        make: |n| in_turn(n, &[1_000, 7_000, 3_000, 5_000]),
    },
    // The sum is 6,000 times the square of the states.
    Family {
        name: "odd multiples, 1 : 3 : 5 and on",
        make: |n| (0..n as u64).map(|i| (2 * i + 1) * 6_000).collect(),
    },
    // Largest first, which a sort is quickest with.
    Family {
        name: "squares in pairs, falling",
        make: |n| {
            let places = (1..=n as u64).rev();
            places.map(|i| i.div_ceil(2).pow(2)).collect()
        },
    },
    ONES_AND_GIANT,
    GIANT,
    Family {
        name: "thousands and one as large as all",
        make: |n| with_giant(n, 1_000, 1_000 * (n as u64 - 1)),
    },
];

/// Populations spread evenly over three powers of ten, others for each number of states, house and
/// seed.
pub fn ordinary(states: usize, house: u64, seed: u64) -> Vec<u64> {
    let seed = seed.wrapping_mul(0x9E37_79B9_7F4A_7C15) ^ house ^ ((states as u64) << 32);
    let mut random = random(seed);
    let spread = |number: u64| 1_000f64.powf((number >> 11) as f64 / (1u64 << 53) as f64);
    (0..states)
        .map(|_| (10_000.0 * spread(random())) as u64)
        .collect()
}

/// Random numbers by shifts, from a seed that is not 0.
fn random(seed: u64) -> impl FnMut() -> u64 {
    let mut number = seed;
    move || {
        number ^= number << 13;
        number ^= number >> 7;
        number ^= number << 17;
        number
    }
}

/// The sizes one after another, over and over.
fn in_turn(states: usize, sizes: &[u64]) -> Vec<u64> {
    sizes.iter().copied().cycle().take(states).collect()
}

/// States of one size and, last, a larger one.
fn with_giant(states: usize, size: u64, giant: u64) -> Vec<u64> {
    let mut populations = vec![size; states];
    populations[states - 1] = giant;
    populations
}

#[cfg(test)]
mod tests {
    use super::*;

    #[test]
    fn every_kind_is_sound_at_the_limits() {
        for kind in FAMILIES.iter().chain([&ORDINARY, &RANDOM_SIZES]) {
            let populations = kind.populations(STATES);
            let checked = reference::check_problem(&populations, HOUSE_LIMIT);
            assert_eq!(checked, Ok(()), "{}", kind.name);
        }
    }

    #[test]
    fn houses_rise_to_the_limit_at_most() {
        for method in Method::ALL {
            let houses = houses(method, STATES as u64);
            assert!(
                houses.windows(2).all(|pair| pair[0] < pair[1]),
                "{houses:?}"
            );
            assert!(houses.last() <= Some(&HOUSE_LIMIT));
        }
    }
}
