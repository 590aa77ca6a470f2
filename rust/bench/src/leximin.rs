//! Leximin from the nearest seats to the house by a heap of moves, exact by cross-multiplication.

use reference::{check_problem, Method};
use std::cmp::Ordering;
use std::collections::binary_heap::PeekMut;
use std::collections::BinaryHeap;

/// A seat more for a state (PLACING) or one less. The greater move comes first.
///
/// From the nearest seats upwards the new seats are above the share pH / P, so the least new size
/// is the largest p / seats; downwards they are not above it, and it is the smallest.
#[derive(Clone, Copy)]
struct Move<const PLACING: bool> {
    population: u64,
    /// The state's seats after the move.
    seats: u64,
    /// The size before the move, as a fraction.
    present: (u64, u64),
    state: usize,
}

impl<const PLACING: bool> Move<PLACING> {
    /// The move of a state of population p with a seats.
    fn of(state: usize, p: u64, a: u64, house: u64, sum: u64) -> Self {
        Move {
            population: p,
            seats: if PLACING { a + 1 } else { a - 1 },
            present: ((p * house).abs_diff(a * sum), a * sum),
            state,
        }
    }
}

impl<const PLACING: bool> Ord for Move<PLACING> {
    /// Least new size, then larger present size, then the earlier state when placing and the
    /// later one when withdrawing.
    fn cmp(&self, other: &Self) -> Ordering {
        let quotients = (self.population * other.seats).cmp(&(other.population * self.seats));
        let present = || {
            if self.seats == other.seats {
                return Ordering::Equal;
            }
            let left = self.present.0 as u128 * other.present.1 as u128;
            let right = other.present.0 as u128 * self.present.1 as u128;
            left.cmp(&right)
        };
        let states = || self.state.cmp(&other.state);
        if PLACING {
            quotients
                .then_with(present)
                .then_with(|| states().reverse())
        } else {
            quotients.reverse().then_with(present).then_with(states)
        }
    }
}

impl<const PLACING: bool> PartialOrd for Move<PLACING> {
    fn partial_cmp(&self, other: &Self) -> Option<Ordering> {
        Some(self.cmp(other))
    }
}

impl<const PLACING: bool> PartialEq for Move<PLACING> {
    fn eq(&self, other: &Self) -> bool {
        self.cmp(other) == Ordering::Equal
    }
}

impl<const PLACING: bool> Eq for Move<PLACING> {}

/// Leximin from the nearest seats.
pub fn from_nearest(_: Method, house: u64, populations: &[u64], seats: &mut [u64]) {
    check_problem(populations, house).expect("a sound problem");
    let sum: u64 = populations.iter().sum();
    let total = fill_nearest(house, sum, populations, seats);
    if total < house {
        let left = house - place_level(house, sum, total, populations, seats);
        place(house, sum, left, populations, seats);
    } else if total > house {
        withdraw(house, sum, total - house, populations, seats);
    }
}

/// Gives each state its nearest seats, the fewer of two equally near; hands back their total.
pub fn fill_nearest(house: u64, sum: u64, populations: &[u64], seats: &mut [u64]) -> u64 {
    let mut total = 0;
    for (seats, &p) in seats.iter_mut().zip(populations) {
        let below = p * house / sum;
        let one_more = one_more_size(below, p * house - below * sum, sum).is_lt();
        *seats = below + one_more as u64;
        total += *seats;
    }
    total
}

/// The size with a + 1 seats beside the size with a, where the share pH / P is a and r / P:
/// (P − r) / (a + 1) beside r / a, cross-multiplied. With no seats every size is less.
fn one_more_size(a: u64, r: u64, sum: u64) -> Ordering {
    (a * sum).cmp(&((2 * a + 1) * r))
}

/// Gives a seat to each state whose size it leaves as it is, in register order, until the house
/// is reached; hands back the total.
pub fn place_level(
    house: u64,
    sum: u64,
    mut total: u64,
    populations: &[u64],
    seats: &mut [u64],
) -> u64 {
    for (seats, &p) in seats.iter_mut().zip(populations) {
        let (share, seated) = (p * house, *seats * sum);
        let level = seated <= share && one_more_size(*seats, share - seated, sum).is_eq();
        if total < house && level {
            *seats += 1;
            total += 1;
        }
    }
    total
}

/// Places so many seats by moves that raise a size.
fn place(house: u64, sum: u64, count: u64, populations: &[u64], seats: &mut [u64]) {
    let gain = |i: usize, a: u64| Move::<true>::of(i, populations[i], a, house, sum);
    let moves: Vec<_> = (0..seats.len()).map(|i| gain(i, seats[i])).collect();
    let mut moves = BinaryHeap::from(moves);
    for _ in 0..count {
        let mut first = moves.peek_mut().expect("every state has a move");
        let i = first.state;
        seats[i] += 1;
        *first = gain(i, seats[i]);
    }
}

/// Withdraws so many seats from states with more than one.
fn withdraw(house: u64, sum: u64, count: u64, populations: &[u64], seats: &mut [u64]) {
    let loss = |i: usize, a: u64| Move::<false>::of(i, populations[i], a, house, sum);
    let rich = (0..seats.len()).filter(|&i| seats[i] > 1);
    let moves: Vec<_> = rich.map(|i| loss(i, seats[i])).collect();
    let mut moves = BinaryHeap::from(moves);
    for _ in 0..count {
        let mut first = moves.peek_mut().expect("a state with a second seat");
        let i = first.state;
        seats[i] -= 1;
        if seats[i] == 1 {
            PeekMut::pop(first);
        } else {
            *first = loss(i, seats[i]);
        }
    }
}
