//! Leximin from the nearest seats by a tournament: the state that moves next stands at the root of
//! a tree whose leaves are the states, and a move is made good on the way up from its leaf.

use crate::leximin::{fill_nearest, place_level};
use reference::{check_problem, Method};

/// Leximin from the nearest seats.
pub fn from_nearest(_: Method, house: u64, populations: &[u64], seats: &mut [u64]) {
    check_problem(populations, house).expect("a sound problem");
    let sum: u64 = populations.iter().sum();
    let total = fill_nearest(house, sum, populations, seats);
    if total < house {
        let left = house - place_level(house, sum, total, populations, seats);
        Tournament::<true>::new(house, sum, populations, seats).make_moves(left);
    } else if total > house {
        Tournament::<false>::new(house, sum, populations, seats).make_moves(total - house);
    }
}

/// A tournament of moves that place seats (PLACING) or withdraw them.
struct Tournament<'a, const PLACING: bool> {
    house: u64,
    sum: u64,
    populations: &'a [u64],
    seats: &'a mut [u64],
    /// Each state's quotient; the largest moves first.
    quotients: Vec<f64>,
    /// Place k holds the one of the states at places 2k and 2k + 1 that moves first; the root is
    /// place 1, and the second half of the places are the leaves.
    tree: Vec<u16>,
}

/// The quotient of a state of population p with a seats: p / (a + 1) where a seat is placed,
/// (a − 1) / p where one is withdrawn, so that a state with one seat never gives it up.
///
/// These are exact enough: p is below 2^32 and the seats are below 2^15, so different quotients
/// differ by more than one part in 2^47, and rounding moves each by less than one in 2^52.
fn quotient<const PLACING: bool>(p: u64, a: u64) -> f64 {
    // From 32 bits a conversion is one instruction.
    let (p, a) = (p as u32, a as u32);
    if PLACING {
        p as f64 / (a + 1) as f64
    } else {
        (a - 1) as f64 / p as f64
    }
}

impl<'a, const PLACING: bool> Tournament<'a, PLACING> {
    fn new(house: u64, sum: u64, populations: &'a [u64], seats: &'a mut [u64]) -> Self {
        let states = populations.len();
        let quotients = populations.iter().zip(seats.iter());
        let quotients = quotients
            .map(|(&p, &a)| quotient::<PLACING>(p, a))
            .collect();
        let mut tree = vec![0; states];
        tree.extend(0..states as u16);
        let mut tournament = Tournament {
            house,
            sum,
            populations,
            seats,
            quotients,
            tree,
        };
        for k in (1..states).rev() {
            let (left, right) = (tournament.tree[2 * k], tournament.tree[2 * k + 1]);
            tournament.tree[k] = tournament.first(left, right);
        }
        tournament
    }

    /// The one of two states that moves first: the larger quotient, which is the least new size;
    /// of equal ones the larger present size; of equal ones again the earlier state when placing
    /// and the later one when withdrawing.
    fn first(&self, i: u16, j: u16) -> u16 {
        let (own, other) = (self.quotients[i as usize], self.quotients[j as usize]);
        if own == other {
            return self.first_of_equal(i, j);
        }
        if own > other {
            i
        } else {
            j
        }
    }

    fn first_of_equal(&self, i: u16, j: u16) -> u16 {
        let (a, b) = (self.seats[i as usize], self.seats[j as usize]);
        // With equal seats the populations are equal too, and with them the sizes.
        if a != b {
            // Below 2^47 times a number below 2^15.
            let own = self.distance(i) * b;
            let other = self.distance(j) * a;
            if own != other {
                return if own > other { i } else { j };
            }
        }
        if PLACING {
            i.min(j)
        } else {
            i.max(j)
        }
    }

    /// |pH − aP|, which over aP is the present size.
    fn distance(&self, state: u16) -> u64 {
        let state = state as usize;
        (self.populations[state] * self.house).abs_diff(self.seats[state] * self.sum)
    }

    fn make_moves(&mut self, count: u64) {
        let mut left = count;
        while left > 0 {
            let state = self.tree[1];
            self.move_seat(state);
            left -= 1;
            self.replay(state);
            if self.tree[1] == state {
                left -= self.move_again(state, left);
            }
        }
    }

    fn move_seat(&mut self, state: u16) {
        let state = state as usize;
        if PLACING {
            self.seats[state] += 1;
        } else {
            self.seats[state] -= 1;
        }
        self.quotients[state] = quotient::<PLACING>(self.populations[state], self.seats[state]);
    }

    /// Decides anew the places on the way up from the leaf of a state that moved.
    fn replay(&mut self, state: u16) {
        let mut first = state;
        let mut k = self.seats.len() + state as usize;
        while k > 1 {
            first = self.first(first, self.tree[k ^ 1]);
            k /= 2;
            self.tree[k] = first;
        }
    }

    /// Moves the state at the root for as long as it moves before the best of all others, up to so
    /// many times; hands back how many. A giant among small states moves many times in a row.
    fn move_again(&mut self, state: u16, count: u64) -> u64 {
        let mut k = self.seats.len() + state as usize;
        let mut best = self.tree[k ^ 1];
        while k > 3 {
            k /= 2;
            best = self.first(best, self.tree[k ^ 1]);
        }
        let mut made = 0;
        while made < count && self.first(state, best) == state {
            self.move_seat(state);
            made += 1;
        }
        self.replay(state);
        made
    }
}
