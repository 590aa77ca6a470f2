//! The programs that are timed beside each other on inputs full of ties: the library, the
//! reference and quicker plain ones, all exact.

use crate::{calls, events, heap, leximin, repeat, tournament};
use reference::Method;
use std::hint::black_box;

/// A program that fills the seats of a sound problem.
pub type Fill = fn(Method, u64, &[u64], &mut [u64]);

/// The places of the library and the reference among a method's programs.
pub const LIBRARY: usize = 0;
pub const REFERENCE: usize = 1;

/// The programs of a method by name: the library, the reference, and the others.
pub fn programs(method: Method) -> Vec<(&'static str, Fill)> {
    let mut programs: Vec<(&'static str, Fill)> =
        vec![("library", by_library), ("reference", by_reference)];
    match method {
        Method::Leximin => {
            programs.push(("heap from the nearest seats", leximin::from_nearest));
            programs.push(("tournament", tournament::from_nearest));
        }
        Method::Remainders => programs.push(("parted remainders", heap::parted_remainders)),
        Method::Quota => {
            programs.push(("scan of all states", events::scan));
            programs.push(("event order by heaps", events::with_heaps));
            programs.push(("event order by buckets and a heap", events::with_buckets));
            programs.push(("free seats beside whole shares", events::by_free_seats));
        }
        _ => {
            programs.push(("heap from nothing", heap::from_nothing));
            programs.push(("heap from rounded seats", heap::from_rounded));
        }
    }
    match method {
        Method::Adams => programs.push(("heap from seats for H − n/2", heap::from_shifted)),
        Method::Jefferson => programs.push(("heap from seats for H + n/2", heap::from_shifted)),
        _ => {}
    }
    programs
}

fn by_library(method: Method, house: u64, populations: &[u64], seats: &mut [u64]) {
    let method = desk::Method::ALL[method as usize];
    desk::allot(method, house, populations, seats).expect("a sound problem");
}

fn by_reference(method: Method, house: u64, populations: &[u64], seats: &mut [u64]) {
    reference::allot(method, house, populations, seats).expect("a sound problem");
}

/// Panics unless all programs of the method fill the same seats.
pub fn check_agreement(method: Method, house: u64, populations: &[u64]) {
    let mut seats = vec![0; populations.len()];
    let mut other = seats.clone();
    by_library(method, house, populations, &mut seats);
    assert_eq!(seats.iter().sum::<u64>(), house);
    for (name, fill) in &programs(method)[1..] {
        other.fill(u64::MAX);
        fill(method, house, populations, &mut other);
        assert_eq!(seats, other, "{name}, {method:?} {house} {populations:?}");
    }
}

/// The best times of the method's programs on one input, in nanoseconds.
#[derive(Clone)]
pub struct Times(Vec<f64>);

impl Times {
    /// Checks that all programs fill the same seats and times them: the best of the repeats, in
    /// which they take turns.
    pub fn of(method: Method, house: u64, populations: &[u64], repeats: u32) -> Times {
        check_agreement(method, house, populations);
        let mut runs: Vec<Box<dyn FnMut() + '_>> = Vec::new();
        for (_, fill) in programs(method) {
            let mut seats = vec![0; populations.len()];
            runs.push(Box::new(move || {
                fill(method, house, black_box(populations), black_box(&mut seats))
            }));
        }
        let counts: Vec<u32> = runs.iter_mut().map(calls).collect();
        let mut best = vec![f64::INFINITY; runs.len()];
        for _ in 0..repeats {
            for (i, run) in runs.iter_mut().enumerate() {
                best[i] = best[i].min(repeat(counts[i], run));
            }
        }
        Times(best)
    }

    /// Keeps the better of two times of each program.
    pub fn improve(&mut self, other: &Times) {
        for (own, other) in self.0.iter_mut().zip(&other.0) {
            *own = own.min(*other);
        }
    }

    pub fn library(&self) -> f64 {
        self.0[LIBRARY]
    }

    /// The time of the program with a given place in the list of them.
    pub fn of_program(&self, place: usize) -> f64 {
        self.0[place]
    }

    /// The place of the fastest plain program.
    pub fn fastest(&self) -> usize {
        (1..self.0.len())
            .min_by(|&a, &b| self.0[a].total_cmp(&self.0[b]))
            .expect("a plain program")
    }

    /// The time of the fastest plain program.
    pub fn plain(&self) -> f64 {
        self.0[self.fastest()]
    }

    /// The library's time over that of the plain program with a given place.
    pub fn ratio_to(&self, place: usize) -> f64 {
        self.library() / self.0[place]
    }

    /// The library's time over the fastest plain program's.
    pub fn ratio(&self) -> f64 {
        self.library() / self.plain()
    }
}

/// Nanoseconds as microseconds.
pub fn micros(time: f64) -> String {
    let time = time / 1_000.0;
    if time < 9.995 {
        format!("{time:.2}")
    } else {
        format!("{time:.1}")
    }
}

/// A number below a million with a comma after its thousands.
pub fn commas(number: u64) -> String {
    if number < 1_000 {
        number.to_string()
    } else {
        format!("{},{:03}", number / 1_000, number % 1_000)
    }
}

#[cfg(test)]
mod tests {
    use super::*;
    use crate::families::{GIANT, NEARLY_EQUAL, ORDINARY, RANDOM_SIZES, THREE_SIZES};
    use reference::{HOUSE_LIMIT, STATES_LIMIT, SUM_LIMIT};

    #[test]
    fn all_programs_agree_on_small_problems_full_of_ties() {
        for code in 0..6u64.pow(4) {
            let populations: Vec<u64> = (0..4).map(|k| 1 + code / 6u64.pow(k) % 6).collect();
            for house in [1, 2, 4, 5, 7, 9, 14] {
                for method in Method::ALL {
                    if house >= 4 || !method.seats_every_state() {
                        check_agreement(method, house, &populations);
                    }
                }
            }
        }
    }

    #[test]
    fn all_programs_agree_at_the_limits() {
        let populations = [SUM_LIMIT - 1_000_003, 1, 1, 1_000_001];
        for method in Method::ALL {
            for house in [4, HOUSE_LIMIT - 1, HOUSE_LIMIT] {
                check_agreement(method, house, &populations);
            }
        }
    }

    #[test]
    fn all_programs_agree_at_any_number_of_states() {
        for states in (1..40).chain([STATES_LIMIT - 1, STATES_LIMIT]) {
            let seats = if states < 40 { 1..20 } else { 1..3 };
            for kind in [ORDINARY, NEARLY_EQUAL, THREE_SIZES, RANDOM_SIZES, GIANT] {
                let populations = kind.populations(states);
                for seats in seats.clone() {
                    let house = states as u64 * seats + states as u64 / 3;
                    for method in Method::ALL {
                        check_agreement(method, house, &populations);
                    }
                }
            }
        }
    }
}
