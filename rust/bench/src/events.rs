//! Plain programs for the quota method, exact like the reference: every seat by a look at all
//! states, in the order of the seats from which states may have their next one, and without giving
//! the seats one by one.

use reference::{check_problem, Method};
use std::cmp::{Ordering, Reverse};
use std::collections::binary_heap::PeekMut;
use std::collections::BinaryHeap;

/// A state's claim to its next seat. The greater one comes first: more voters a seat, of equal ones
/// the earlier state's.
#[derive(Clone, Copy)]
struct Claim {
    population: u64,
    /// The seats that the state would have.
    seats: u64,
    state: usize,
}

impl Ord for Claim {
    fn cmp(&self, other: &Self) -> Ordering {
        // Below 2^32 times a number below 2^15.
        let quotients = (self.population * other.seats).cmp(&(other.population * self.seats));
        quotients.then_with(|| other.state.cmp(&self.state))
    }
}

impl PartialOrd for Claim {
    fn partial_cmp(&self, other: &Self) -> Option<Ordering> {
        Some(self.cmp(other))
    }
}

impl PartialEq for Claim {
    fn eq(&self, other: &Self) -> bool {
        self.cmp(other) == Ordering::Equal
    }
}

impl Eq for Claim {}

/// The claim of a state that has so many seats.
fn claim(populations: &[u64], state: usize, seats: u64) -> Claim {
    Claim {
        population: populations[state],
        seats: seats + 1,
        state,
    }
}

/// Every state's first claim, which it has from the first seat on.
fn first_claims(populations: &[u64]) -> BinaryHeap<Claim> {
    let claims: Vec<Claim> = (0..populations.len())
        .map(|i| claim(populations, i, 0))
        .collect();
    BinaryHeap::from(claims)
}

/// Each seat by a look at all states.
pub fn scan(_: Method, house: u64, populations: &[u64], seats: &mut [u64]) {
    check_problem(populations, house).expect("a sound problem");
    let sum: u64 = populations.iter().sum();
    seats.fill(0);
    for h in 1..=house {
        // Voters and seats of the first claim so far; any other is above the one of no voters.
        let (mut state, mut first) = (0, (0, 1));
        for (i, (&p, &a)) in populations.iter().zip(seats.iter()).enumerate() {
            if a * sum < p * h && p * first.1 > first.0 * (a + 1) {
                (state, first) = (i, (p, a + 1));
            }
        }
        seats[state] += 1;
    }
}

/// States that wait for the seat from which they may have their next one stand in a heap by that
/// seat, and those that may have it in a heap of claims.
pub fn with_heaps(_: Method, house: u64, populations: &[u64], seats: &mut [u64]) {
    check_problem(populations, house).expect("a sound problem");
    let sum: u64 = populations.iter().sum();
    seats.fill(0);
    let mut able = first_claims(populations);
    let mut waiting: BinaryHeap<Reverse<(u64, usize)>> = BinaryHeap::new();
    for h in 1..=house {
        while let Some(&Reverse((from, i))) = waiting.peek() {
            if from > h {
                break;
            }
            waiting.pop();
            able.push(claim(populations, i, seats[i]));
        }
        let i = able.pop().expect("a state below its share").state;
        seats[i] += 1;
        waiting.push(Reverse((seats[i] * sum / populations[i] + 1, i)));
    }
}

/// The seats from which a state may have its first, second and every further one, ⌊a × P / p⌋ + 1
/// with a seats, by additions alone.
struct Turns {
    population: u64,
    from: u64,
    /// The remainder of a × P by p.
    over: u64,
    /// P / p, and its remainder.
    step: (u64, u64),
}

impl Turns {
    fn new(population: u64, sum: u64) -> Turns {
        Turns {
            population,
            from: 1,
            over: 0,
            step: (sum / population, sum % population),
        }
    }

    /// The seat from which the state may have one more.
    fn next(&mut self) -> u64 {
        self.over += self.step.1;
        let carry = self.over >= self.population;
        self.over -= if carry { self.population } else { 0 };
        self.from += self.step.0 + carry as u64;
        self.from
    }
}

/// The same with a list for each seat of the states that wait for it.
pub fn with_buckets(_: Method, house: u64, populations: &[u64], seats: &mut [u64]) {
    const NONE: u16 = u16::MAX;
    check_problem(populations, house).expect("a sound problem");
    let sum: u64 = populations.iter().sum();
    seats.fill(0);
    let mut able = first_claims(populations);
    let mut turns: Vec<Turns> = populations.iter().map(|&p| Turns::new(p, sum)).collect();
    // The first state that waits for each seat, and the next one after each state.
    let mut heads = vec![NONE; house as usize + 1];
    let mut after = vec![NONE; populations.len()];
    for h in 1..=house {
        let mut waiting = heads[h as usize];
        while waiting != NONE {
            let i = waiting as usize;
            able.push(claim(populations, i, seats[i]));
            waiting = after[i];
        }
        let mut first = able.peek_mut().expect("a state below its share");
        let i = first.state;
        seats[i] += 1;
        let from = turns[i].next();
        if from <= h + 1 {
            *first = claim(populations, i, seats[i]);
        } else {
            PeekMut::pop(first);
            if from <= house {
                after[i] = heads[from as usize];
                heads[from as usize] = i as u16;
            }
        }
    }
}

/// The house at once, without giving every seat to a claim.
///
/// A claim may have any seat from some number on, and a set of claims fits if each can have a seat of
/// its own. The method, which gives each seat to the greatest claim that may have it, meets the
/// greatest H claims that fit: where another set left that claim out, it could have the seat in place
/// of a lesser one. The sets that fit are a matroid, so that the claims may as well be gone through
/// from the greatest on, each being met if it still fits; and those of whole shares, which are met in
/// any case, before all others. These take the earliest seats that they may have, which is a matter
/// of counting. Then each other claim takes the earliest free seat from its number on, if there is
/// one.
pub fn by_free_seats(_: Method, house: u64, populations: &[u64], seats: &mut [u64]) {
    check_problem(populations, house).expect("a sound problem");
    let sum: u64 = populations.iter().sum();
    // How many claims of whole shares may have each seat and not the one before it.
    let mut coming = vec![0u16; house as usize + 1];
    let mut claims = Vec::with_capacity(populations.len());
    let mut left = house;
    for (i, &p) in populations.iter().enumerate() {
        let mut turns = Turns::new(p, sum);
        seats[i] = p * house / sum;
        left -= seats[i];
        for _ in 0..seats[i] {
            coming[turns.from as usize] += 1;
            turns.next();
        }
        if turns.from <= house {
            claims.push((claim(populations, i, seats[i]), turns.from as u16));
        }
    }
    let mut free = Vec::with_capacity(left as usize);
    let mut waiting = 0;
    for (h, &coming) in (0..=house as u16).zip(&coming).skip(1) {
        waiting += coming as u32;
        if waiting == 0 {
            free.push(h);
        }
        waiting = waiting.saturating_sub(1);
    }
    claims.sort_unstable_by(|(one, _), (other, _)| other.cmp(one));
    let mut next_free = NextFree::new(free.len());
    for (claim, from) in claims {
        let earliest = free.partition_point(|&h| h < from);
        if next_free.take(earliest) {
            seats[claim.state] += 1;
        }
    }
}

/// Which of the free seats are still free: each place knows one at or after it, and the last place
/// stands for none.
struct NextFree(Vec<u16>);

impl NextFree {
    fn new(count: usize) -> NextFree {
        NextFree((0..=count as u16).collect())
    }

    /// Takes the first free seat at or after a place, if there is one.
    fn take(&mut self, place: usize) -> bool {
        let mut found = place;
        while self.0[found] as usize != found {
            // Half of the places on the way are pointed further on, so that ways stay short.
            self.0[found] = self.0[self.0[found] as usize];
            found = self.0[found] as usize;
        }
        if found + 1 == self.0.len() {
            return false;
        }
        self.0[found] = found as u16 + 1;
        true
    }
}

#[cfg(test)]
mod tests {
    use super::*;
    use crate::families::KINDS;

    #[test]
    fn all_programs_fill_the_seats_of_the_scan_at_every_house() {
        for states in [1, 2, 3, 7, 30] {
            for populations in KINDS.map(|kind| kind.populations(states)) {
                let mut expected = vec![0; states];
                let mut seats = vec![0; states];
                for house in 1..=200 {
                    scan(Method::Quota, house, &populations, &mut expected);
                    for program in [with_heaps, with_buckets, by_free_seats] {
                        seats.fill(u64::MAX);
                        program(Method::Quota, house, &populations, &mut seats);
                        assert_eq!(seats, expected, "{populations:?} {house}");
                    }
                }
            }
        }
    }
}
