//! Allotting a house by any of the eight methods: the divisor methods by a heap of claims,
//! largest remainders by sorting, the quota method by one heap of states that wait and one of
//! those that may have the next seat, leximin by moving seats from its start to the house.

use crate::{leximin, refusal, Method, Refusal, HOUSE_LIMIT, STATES_LIMIT, SUM_LIMIT};
use std::cmp::{Ordering, Reverse};
use std::collections::BinaryHeap;

/// Fills the lent list with each state's seats and hands back the steps made
/// (the gap from leximin's start to the house, 0 under the other methods).
/// Refused, the list keeps its contents.
pub fn allot(
    method: Method,
    house: u64,
    populations: &[u64],
    seats: &mut [u64],
) -> Result<u64, Refusal> {
    check_problem(populations, house)?;
    if seats.len() != populations.len() {
        return Err(refusal(14));
    }
    if method.seats_every_state() && house < populations.len() as u64 {
        return Err(refusal(15));
    }
    let (allotted, steps) = match method {
        Method::Leximin => leximin::allotted(populations, house),
        Method::Remainders => (largest_remainders(populations, house), 0),
        Method::Quota => (within_quota(populations, house), 0),
        _ => (first_claims(method, populations, house), 0),
    };
    seats.copy_from_slice(&allotted);
    Ok(steps)
}

/// The checks that allotting and opening share: 10, 11, 12, 13.
pub fn check_problem(populations: &[u64], house: u64) -> Result<(), Refusal> {
    if !(1..=STATES_LIMIT).contains(&populations.len()) {
        return Err(refusal(10));
    }
    if !(1..=HOUSE_LIMIT).contains(&house) {
        return Err(refusal(11));
    }
    if populations.contains(&0) {
        return Err(refusal(12));
    }
    if populations.iter().map(|&p| p as u128).sum::<u128>() > SUM_LIMIT as u128 {
        return Err(refusal(13));
    }
    Ok(())
}

/// A quotient p / d(a) as a fraction, squared under Hill. Where d(a) is 0 the lower number is 0,
/// and cross-multiplication puts it above every other quotient and equal to its like.
#[derive(Clone, Copy)]
struct Quotient {
    over: u128,
    under: u128,
}

impl Quotient {
    /// The quotient of a state of population p with a seats that wants one more.
    fn of(method: Method, p: u64, a: u64) -> Quotient {
        let (p, a) = (p as u128, a as u128);
        let (over, under) = match method {
            Method::Adams => (p, a),
            Method::Dean => (p * (2 * a + 1), 2 * a * (a + 1)),
            Method::Hill => (p * p, a * (a + 1)),
            Method::Webster => (2 * p, 2 * a + 1),
            Method::Jefferson | Method::Quota => (p, a + 1),
            Method::Leximin | Method::Remainders => unreachable!("a method without quotients"),
        };
        Quotient { over, under }
    }
}

impl Ord for Quotient {
    fn cmp(&self, other: &Self) -> Ordering {
        (self.over * other.under).cmp(&(other.over * self.under))
    }
}

impl PartialOrd for Quotient {
    fn partial_cmp(&self, other: &Self) -> Option<Ordering> {
        Some(self.cmp(other))
    }
}

impl PartialEq for Quotient {
    fn eq(&self, other: &Self) -> bool {
        self.cmp(other) == Ordering::Equal
    }
}

impl Eq for Quotient {}

/// The first H claims, met one by one from nothing: larger quotients first, equal ones in
/// register order.
fn first_claims(method: Method, populations: &[u64], house: u64) -> Vec<u64> {
    let mut seats = vec![0; populations.len()];
    let claim = |i: usize, a: u64| (Quotient::of(method, populations[i], a), Reverse(i));
    let mut claims: BinaryHeap<_> = (0..seats.len()).map(|i| claim(i, 0)).collect();
    for _ in 0..house {
        let (_, Reverse(i)) = claims.pop().expect("every state has a claim");
        seats[i] += 1;
        claims.push(claim(i, seats[i]));
    }
    seats
}

/// The whole part of p × H / P for each state; the seats left go one each to the largest
/// remainders, of equal ones to the largest populations, and only then in register order.
fn largest_remainders(populations: &[u64], house: u64) -> Vec<u64> {
    let sum: u64 = populations.iter().sum();
    let mut seats: Vec<u64> = populations.iter().map(|p| p * house / sum).collect();
    let left = house - seats.iter().sum::<u64>();
    let mut order: Vec<usize> = (0..seats.len()).collect();
    let remainder = |i: usize| populations[i] * house % sum;
    // Sorting keeps register order where both are equal.
    order.sort_by_key(|&i| Reverse((remainder(i), populations[i])));
    for &i in &order[..left as usize] {
        seats[i] += 1;
    }
    seats
}

/// The quota method from nothing. The seat numbered h is for states that are below their share of
/// h seats, a × P < p × h, and of these for the one with the largest quotient, of equal ones the
/// first in the register. A state with a seats is below its share from some seat on and stays so
/// until it has another, so that it waits for that seat and then stands among the able.
fn within_quota(populations: &[u64], house: u64) -> Vec<u64> {
    let sum: u64 = populations.iter().sum();
    let mut seats = vec![0; populations.len()];
    let from = |i: usize, a: u64| (Reverse(a * sum / populations[i] + 1), Reverse(i));
    let mut waiting: BinaryHeap<_> = (0..seats.len()).map(|i| from(i, 0)).collect();
    let mut able = BinaryHeap::new();
    for h in 1..=house {
        while let Some(&(_, Reverse(i))) = waiting.peek().filter(|(from, _)| from.0 <= h) {
            waiting.pop();
            let quotient = Quotient::of(Method::Quota, populations[i], seats[i]);
            able.push((quotient, Reverse(i)));
        }
        // The seats given are fewer than h and the shares add up to h.
        let (_, Reverse(i)) = able.pop().expect("a state below its share");
        seats[i] += 1;
        waiting.push(from(i, seats[i]));
    }
    seats
}

#[cfg(test)]
mod tests {
    use super::*;

    /// The first H of all claims up to seat H, sorted outright.
    fn sorted_claims(method: Method, populations: &[u64], house: u64) -> Vec<u64> {
        let mut claims = Vec::new();
        for (i, &p) in populations.iter().enumerate() {
            for a in 0..house {
                claims.push((Reverse(Quotient::of(method, p, a)), i));
            }
        }
        claims.sort();
        let mut seats = vec![0; populations.len()];
        for (_, i) in &claims[..house as usize] {
            seats[*i] += 1;
        }
        seats
    }

    #[test]
    fn the_heap_meets_the_first_of_all_claims() {
        use Method::*;
        for code in 0..6u64.pow(4) {
            let populations: Vec<u64> = (0..4).map(|k| 1 + code / 6u64.pow(k) % 6).collect();
            for house in [1, 2, 5, 9] {
                for method in [Adams, Dean, Hill, Webster, Jefferson] {
                    assert_eq!(
                        first_claims(method, &populations, house),
                        sorted_claims(method, &populations, house),
                        "{method:?} {populations:?} {house}"
                    );
                }
            }
        }
    }

    /// Largest remainders by their words: one state after another has a seat that is left, each
    /// time the one that no other without such a seat comes before.
    fn served_in_turn(populations: &[u64], house: u64) -> Vec<u64> {
        let sum: u64 = populations.iter().sum();
        let shares = populations
            .iter()
            .map(|p| (p * house / sum, p * house % sum));
        let (mut seats, remainders): (Vec<u64>, Vec<u64>) = shares.unzip();
        let before = |j: usize, i: usize| {
            if remainders[j] != remainders[i] {
                remainders[j] > remainders[i]
            } else if populations[j] != populations[i] {
                populations[j] > populations[i]
            } else {
                j < i
            }
        };
        let mut waiting: Vec<usize> = (0..seats.len()).collect();
        for _ in seats.iter().sum::<u64>()..house {
            let is_next = |&i: &usize| !waiting.iter().any(|&j| before(j, i));
            let next = waiting.iter().position(is_next).expect("a first state");
            seats[waiting.remove(next)] += 1;
        }
        seats
    }

    #[test]
    fn sorting_serves_the_states_in_turn() {
        for code in 0..6u64.pow(4) {
            let populations: Vec<u64> = (0..4).map(|k| 1 + code / 6u64.pow(k) % 6).collect();
            for house in 1..15 {
                assert_eq!(
                    largest_remainders(&populations, house),
                    served_in_turn(&populations, house),
                    "{populations:?} {house}"
                );
            }
        }
    }

    #[test]
    fn of_equal_remainders_the_larger_population_has_the_seat() {
        assert_eq!(largest_remainders(&[1, 3], 2), [0, 2]);
        assert_eq!(largest_remainders(&[3, 1], 2), [2, 0]);
        // Three remainders of 4 and one seat, three of 8 and two seats.
        assert_eq!(largest_remainders(&[4, 1, 7], 4), [1, 0, 3]);
        assert_eq!(largest_remainders(&[1, 4, 7], 8), [0, 3, 5]);
        // Remainders 5, 10, 15, 10, 10 and two seats.
        assert_eq!(largest_remainders(&[1, 2, 3, 7, 12], 5), [0, 0, 1, 1, 3]);
        // The limits: two remainders of 2,576,970,000, a larger one, and two seats.
        let populations = [85_899, 1_431_741_664, 2_863_139_732];
        assert_eq!(populations.iter().sum::<u64>(), SUM_LIMIT);
        let seats = largest_remainders(&populations, HOUSE_LIMIT);
        assert_eq!(seats, [0, 10_001, 19_999]);
    }

    #[test]
    fn of_equal_populations_too_the_earlier_state_has_the_seat() {
        assert_eq!(largest_remainders(&[3, 3], 3), [2, 1]);
        assert_eq!(largest_remainders(&[5, 5, 5], 2), [1, 1, 0]);
        assert_eq!(largest_remainders(&[1, 1, 5, 1], 4), [1, 0, 3, 0]);
    }

    #[test]
    fn the_larger_remainder_comes_before_the_larger_population() {
        // Remainders 9 and 1.
        assert_eq!(largest_remainders(&[3, 7], 3), [1, 2]);
    }

    /// The quota method by its words: for each seat a look at every state. Hands over each number
    /// of seats given, and the seats.
    fn seat_by_seat(populations: &[u64], house: u64, mut visit: impl FnMut(u64, &[u64])) {
        let sum = populations.iter().sum::<u64>() as u128;
        let mut seats = vec![0; populations.len()];
        let product = |x: u64, y: u64| x as u128 * y as u128;
        for h in 1..=house {
            let mut first: Option<usize> = None;
            for (i, &p) in populations.iter().enumerate() {
                let able = seats[i] as u128 * sum < product(p, h);
                // A later state needs the larger quotient; an equal one is not enough.
                let comes_before =
                    |k: usize| product(p, seats[k] + 1) > product(populations[k], seats[i] + 1);
                if able && first.is_none_or(comes_before) {
                    first = Some(i);
                }
            }
            seats[first.expect("a state below its share")] += 1;
            visit(h, &seats);
        }
    }

    /// Numbers by shifts, from a seed that is not 0.
    fn numbers(seed: u64) -> impl FnMut() -> u64 {
        let mut number = seed;
        move || {
            number ^= number << 13;
            number ^= number >> 7;
            number ^= number << 17;
            number
        }
    }

    /// Populations full of ties and without any, few and many, and a house up to which each is
    /// tried.
    fn lists_and_houses() -> Vec<(Vec<u64>, u64)> {
        let mut random = numbers(1);
        let mut lists = Vec::new();
        for code in 0..5u64.pow(4) {
            let list: Vec<u64> = (0..4).map(|k| 1 + code / 5u64.pow(k) % 5).collect();
            let sum = list.iter().sum::<u64>();
            lists.push((list, 2 * sum + 1));
        }
        for states in [1, 2, 3, 5, 8, 13, 30, 60] {
            for (most, unit) in [
                (1, 1),
                (2, 1),
                (30, 1),
                (1_000, 1),
                (6, 60_060),
                (30, 60_060),
                (SUM_LIMIT / states, 1),
            ] {
                let list = (0..states).map(|_| (1 + random() % most) * unit);
                lists.push((list.collect(), 40 + 4 * states));
            }
        }
        // A state with most of the voters, first, in the middle and last.
        for at in [0, 10, 20] {
            let mut list = vec![1; 21];
            list[at] = 1_000;
            lists.push((list, 300));
        }
        lists
    }

    #[test]
    fn the_heaps_give_every_seat_as_the_words_say() {
        for (populations, most) in lists_and_houses() {
            seat_by_seat(&populations, most, |house, expected| {
                let seats = within_quota(&populations, house);
                assert_eq!(seats, expected, "{populations:?} {house}");
            });
        }
    }

    #[test]
    fn after_every_seat_each_state_is_within_its_quota() {
        for (populations, most) in lists_and_houses() {
            let sum: u64 = populations.iter().sum();
            for house in 1..=most {
                let seats = within_quota(&populations, house);
                assert_eq!(seats.iter().sum::<u64>(), house);
                for (p, a) in populations.iter().zip(seats) {
                    let share = p * house;
                    let quota = share / sum..=share.div_ceil(sum);
                    assert!(quota.contains(&a), "{populations:?} {house}");
                }
            }
        }
    }

    #[test]
    fn the_quota_is_kept_where_jeffersons_method_breaks_it() {
        let populations = [5_117, 4_400, 162, 161, 160];
        assert_eq!(within_quota(&populations, 100), [52, 44, 2, 1, 1]);
        let jefferson = first_claims(Method::Jefferson, &populations, 100);
        assert_eq!(jefferson, [52, 45, 1, 1, 1]);
    }

    #[test]
    fn equal_populations_have_their_seats_in_register_order() {
        for states in 1..10 {
            for house in 1..40 {
                let seats = within_quota(&vec![7; states as usize], house);
                let expected: Vec<u64> = (0..states)
                    .map(|i| house / states + (i < house % states) as u64)
                    .collect();
                assert_eq!(seats, expected);
            }
        }
    }

    #[test]
    fn of_equal_quotients_too_the_earlier_state_has_the_seat() {
        // For the second seat both quotients are 2.
        assert_eq!(within_quota(&[2, 4], 2), [1, 1]);
        assert_eq!(within_quota(&[4, 2], 2), [2, 0]);
        assert_eq!(within_quota(&[1, 1, 5, 1], 4), [1, 0, 3, 0]);
        assert_eq!(within_quota(&[1, 1, 5, 1], 6), [1, 1, 4, 0]);
    }

    #[test]
    fn the_quota_method_at_the_limits() {
        let mut random = numbers(2);
        let mut spread: Vec<u64> = (0..STATES_LIMIT)
            .map(|_| 1 + random() % (1 << (8 + random() % 15)))
            .collect();
        spread[STATES_LIMIT / 3] += SUM_LIMIT - spread.iter().sum::<u64>();
        let mut giant = vec![1; STATES_LIMIT];
        giant[STATES_LIMIT - 1] += SUM_LIMIT - STATES_LIMIT as u64;
        let least = SUM_LIMIT / STATES_LIMIT as u64;
        let pairs: Vec<u64> = (0..STATES_LIMIT as u64).map(|i| least - i % 2).collect();
        for populations in [spread, giant, pairs] {
            assert_eq!(check_problem(&populations, HOUSE_LIMIT), Ok(()));
            seat_by_seat(&populations, HOUSE_LIMIT, |house, expected| {
                if [1, 799, 800, 801, HOUSE_LIMIT - 1, HOUSE_LIMIT].contains(&house) {
                    assert_eq!(within_quota(&populations, house), expected, "{house}");
                }
            });
        }
        assert_eq!(within_quota(&[SUM_LIMIT], HOUSE_LIMIT), [HOUSE_LIMIT]);
    }

    #[test]
    fn quotients_past_64_bits_are_compared_exactly() {
        // Two counts that differ by 1 at the top of the range, each wanting the last seat.
        for method in [Method::Hill, Method::Dean] {
            let large = Quotient::of(method, SUM_LIMIT, HOUSE_LIMIT - 1);
            let less = Quotient::of(method, SUM_LIMIT - 1, HOUSE_LIMIT - 1);
            assert!(large > less);
            assert!(large.over * less.under > u64::MAX as u128);
        }
    }
}
