//! Growth without loss, as two laws about seats that were handed back: what may change where a
//! house has one seat more, and what may change between two polls at the same house. Neither looks
//! at how the seats came about.

use crate::DIVISOR_METHODS;
use reference::Method;

/// The methods that keep the law of one seat more: all but leximin and largest remainders.
pub const ONE_SEAT_MORE: [Method; 6] = [
    Method::Adams,
    Method::Dean,
    Method::Hill,
    Method::Webster,
    Method::Jefferson,
    Method::Quota,
];

/// The methods that keep the law of two polls: the divisor methods alone.
pub const TWO_POLLS: [Method; 5] = DIVISOR_METHODS;

/// So many changes of seats are told at most.
const TOLD: usize = 5;

/// Precisely one state gains one seat, and no other changes: the seats in a house and in the house
/// with one seat more. An error says what changes instead.
pub fn one_seat_more(smaller: &[u64], larger: &[u64]) -> Result<(), String> {
    let (n, m) = (smaller.len(), larger.len());
    if n != m {
        return Err(format!("one seat more: {n} states and then {m}"));
    }
    let pairs = smaller.iter().zip(larger).enumerate();
    let changes: Vec<_> = pairs.filter(|(_, (a, b))| a != b).collect();
    match changes[..] {
        [(_, (a, b))] if b.checked_sub(1) == Some(*a) => return Ok(()),
        [] => return Err("one seat more changes no state".to_string()),
        _ => (),
    }
    let told = changes.iter().take(TOLD);
    let words: Vec<String> = told
        .map(|(place, (a, b))| format!("{a} seats and then {b} at place {place}"))
        .collect();
    let (count, words) = (changes.len(), words.join(", "));
    Err(format!(
        "one seat more changes {count} of {n} states: {words}"
    ))
}

/// Each state's count in a poll, and the seats that it has by it.
#[derive(Clone, Copy, Debug)]
pub struct Poll<'a> {
    pub counts: &'a [u64],
    pub seats: &'a [u64],
}

/// A state in both polls: its count before and after, and its seats before and after.
struct State {
    place: usize,
    counts: [u64; 2],
    seats: [u64; 2],
}

impl State {
    fn loses(&self) -> bool {
        self.seats[1] < self.seats[0]
    }

    fn gains(&self) -> bool {
        self.seats[1] > self.seats[0]
    }

    /// Whether its count has grown by at least as large a factor as another's.
    fn grows_as_much_as(&self, other: &State) -> bool {
        let product = |x: u64, y: u64| x as u128 * y as u128;
        product(self.counts[1], other.counts[0]) >= product(other.counts[1], self.counts[0])
    }
}

/// If one state's count has grown by at least as large a factor as another's, the first does not
/// lose seats while the other gains. An error names two states for which it is not so. Lists of
/// different lengths are not polls of the same states, and nothing is asked of them.
pub fn two_polls(before: Poll, after: Poll) -> Result<(), String> {
    let states = same_states(before, after);
    let losers = states.iter().filter(|state| state.loses());
    for first in losers {
        let gainers = states.iter().filter(|state| state.gains());
        for other in gainers {
            if first.grows_as_much_as(other) {
                return Err(broken(first, other));
            }
        }
    }
    Ok(())
}

/// The states of two polls, none if the lists have different lengths.
fn same_states(before: Poll, after: Poll) -> Vec<State> {
    let n = before.counts.len();
    if [before.seats, after.counts, after.seats].map(<[u64]>::len) != [n; 3] {
        return Vec::new();
    }
    let state = |place: usize| State {
        place,
        counts: [before.counts[place], after.counts[place]],
        seats: [before.seats[place], after.seats[place]],
    };
    (0..n).map(state).collect()
}

fn broken(first: &State, other: &State) -> String {
    let seats = |state: &State| format!("{} seats and then {}", state.seats[0], state.seats[1]);
    let counts = |state: &State| format!("from {} to {}", state.counts[0], state.counts[1]);
    format!(
        "two polls: the state at place {} has {}, the one at place {} has {}, and the first has \
         grown by at least as large a factor: {} against {}",
        first.place,
        seats(first),
        other.place,
        seats(other),
        counts(first),
        counts(other)
    )
}

#[cfg(test)]
mod tests {
    use super::*;

    #[test]
    fn one_state_may_gain_one_seat() {
        assert_eq!(one_seat_more(&[0], &[1]), Ok(()));
        assert_eq!(one_seat_more(&[3, 3, 8], &[3, 4, 8]), Ok(()));
    }

    #[test]
    fn any_other_change_for_one_seat_more_is_told() {
        let told: [(&[u64], &[u64], &str); 9] = [
            (&[3, 3, 8], &[4, 4, 7], "changes 3 of 3 states"),
            (&[3, 3, 8], &[4, 4, 8], "changes 2 of 3 states"),
            (&[3, 3, 8], &[3, 5, 7], "8 seats and then 7 at place 2"),
            (&[3, 3, 8], &[3, 5, 8], "3 seats and then 5 at place 1"),
            (&[3, 3, 8], &[3, 2, 8], "3 seats and then 2 at place 1"),
            (&[3, 3, 8], &[3, 3, 8], "changes no state"),
            (&[u64::MAX], &[0], "18446744073709551615 seats and then 0"),
            (&[3, 3], &[3, 3, 1], "2 states and then 3"),
            (&[3, 3, 8], &[3, 4], "3 states and then 2"),
        ];
        for (smaller, larger, telling) in told {
            let text = one_seat_more(smaller, larger).unwrap_err();
            assert!(text.contains(telling), "{text}");
        }
        // Of many changes only the first ones are told.
        let text = one_seat_more(&[1; 800], &[2; 800]).unwrap_err();
        assert!(text.contains("changes 800 of 800") && text.len() < 300);
    }

    /// The law for two states: counts before and after, seats before and after.
    fn of_two(counts: [[u64; 2]; 2], seats: [[u64; 2]; 2]) -> Result<(), String> {
        let poll = |k: usize| Poll {
            counts: &counts[k],
            seats: &seats[k],
        };
        two_polls(poll(0), poll(1))
    }

    const FIRST_LOSES: [[u64; 2]; 2] = [[2, 4], [1, 5]];
    const FIRST_GAINS: [[u64; 2]; 2] = [[2, 4], [3, 3]];

    #[test]
    fn a_state_that_has_grown_as_much_may_not_lose_to_the_other() {
        let text = of_two([[10, 20], [20, 40]], FIRST_LOSES).unwrap_err();
        for telling in [
            "place 0 has 2 seats and then 1",
            "place 1 has 4 seats and then 5",
            "from 10 to 20 against from 20 to 40",
        ] {
            assert!(text.contains(telling), "{text}");
        }
        assert!(of_two([[10, 20], [20, 40]], FIRST_GAINS).is_err());
        assert!(of_two([[10, 20], [21, 40]], FIRST_LOSES).is_err());
        assert!(of_two([[10, 20], [19, 40]], FIRST_GAINS).is_err());
        // Both have shrunk, the one that loses by less.
        assert!(of_two([[10, 20], [9, 17]], FIRST_LOSES).is_err());
    }

    #[test]
    fn a_state_that_has_grown_by_less_may_lose_to_the_other() {
        assert_eq!(of_two([[10, 20], [19, 40]], FIRST_LOSES), Ok(()));
        assert_eq!(of_two([[10, 20], [21, 40]], FIRST_GAINS), Ok(()));
        assert_eq!(of_two([[10, 20], [8, 17]], FIRST_LOSES), Ok(()));
        // Where no seat moves, or both go one way, nothing is asked.
        for seats in [[[2, 4], [2, 4]], [[2, 4], [3, 5]], [[2, 4], [1, 3]]] {
            assert_eq!(of_two([[10, 20], [10, 40]], seats), Ok(()));
        }
    }

    #[test]
    fn factors_are_compared_exactly_past_64_bits() {
        const MOST: u64 = u64::MAX;
        let smaller = [[MOST, MOST], [MOST - 1, MOST]];
        assert_eq!(of_two(smaller, FIRST_LOSES), Ok(()));
        assert!(of_two(smaller, FIRST_GAINS).is_err());
        let equal = [[MOST, MOST - 1], [MOST, MOST - 1]];
        assert!(of_two(equal, FIRST_LOSES).is_err());
        assert!(of_two(equal, FIRST_GAINS).is_err());
    }

    #[test]
    fn every_pair_of_states_is_looked_at() {
        let poll = |counts, seats| Poll { counts, seats };
        // The last state loses, and has grown by as much as the second, which gains.
        let before = poll(&[5, 6, 7, 8], &[1, 1, 2, 3]);
        let after = poll(&[9, 6, 7, 8], &[2, 2, 2, 1]);
        let text = two_polls(before, after).unwrap_err();
        assert!(text.contains("place 3") && text.contains("place 1"));
        let after = poll(&[9, 7, 7, 8], &[2, 2, 2, 1]);
        assert_eq!(two_polls(before, after), Ok(()));
    }

    #[test]
    fn polls_of_different_numbers_of_states_ask_nothing() {
        let poll = |counts, seats| Poll { counts, seats };
        let before = poll(&[10, 20], &[2, 4]);
        let after = poll(&[20, 40, 1], &[1, 5, 0]);
        assert_eq!(two_polls(before, after), Ok(()));
        assert_eq!(two_polls(after, before), Ok(()));
    }
}
