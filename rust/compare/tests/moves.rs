//! That moves are put to the test: movers with a rule of their own are found by the inputs of a run,
//! beside the plain desk or by the law of two moves, and the inputs are of every kind.

use compare::moves::{check_each, check_sums, check_way, in_c, moved, Mover};
use compare::{check, Case, Counts, Inputs};
use desk::ffi;
use reference::{Placing, Refusal};
use std::collections::HashSet;

/// A placing as the plain desk has it.
fn plain(placing: &ffi::Placing) -> Placing {
    Placing {
        states: placing.states,
        house: placing.house,
        total: placing.total,
        steps: placing.steps,
        populations: placing.populations,
        seats: placing.seats,
    }
}

/// The plain desk's move in the C interface's form.
fn right(placing: &mut ffi::Placing, seats: u64) -> ffi::Moved {
    let mut own = plain(placing);
    let answer = own.advance(seats);
    *placing = in_c(&own);
    moved(answer)
}

/// What finds a wrong mover: another answer or placing than the plain desk's after some call, the way
/// from an opening to the house, or two moves that do not leave what one by their sum leaves.
#[derive(Clone, Copy, Debug, PartialEq, Eq)]
enum By {
    Calls,
    Way,
    Sums,
}

const WAYS: [By; 3] = [By::Calls, By::Way, By::Sums];

/// A mover that is wrong in one thing.
struct Wrong {
    name: &'static str,
    mover: Mover,
    /// By what it is found for certain.
    found: &'static [By],
}

const WRONG: [Wrong; 14] = [
    Wrong {
        name: "the number asked for is told",
        mover: |placing, seats| ffi::Moved {
            moved: seats,
            ..right(placing, seats)
        },
        found: &[By::Calls, By::Way],
    },
    Wrong {
        name: "a foreign placing emptied",
        mover: |placing, seats| {
            let answer = right(placing, seats);
            if answer.refusal != 0 {
                *placing = in_c(&NOTHING);
            }
            answer
        },
        found: &[By::Calls],
    },
    Wrong {
        name: "a foreign placing cleared past its states",
        mover: |placing, seats| {
            let answer = right(placing, seats);
            let n = placing.states.min(placing.seats.len() as u64) as usize;
            placing.seats[n..].fill(0);
            placing.populations[n..].fill(0);
            answer
        },
        found: &[By::Calls],
    },
    Wrong {
        name: "moved past the house",
        mover: |placing, seats| {
            let mut answer = right(placing, seats);
            if answer.refusal == 0 && answer.moved < seats {
                placing.seats[0] += 1;
                placing.total += 1;
                placing.steps += 1;
                answer.moved += 1;
            }
            answer
        },
        found: &[By::Calls, By::Way, By::Sums],
    },
    Wrong {
        name: "not stored",
        mover: |placing, seats| {
            let mut copy = *placing;
            right(&mut copy, seats)
        },
        found: &[By::Calls, By::Way, By::Sums],
    },
    Wrong {
        name: "one seat moved and the rest feigned",
        mover: |placing, seats| {
            let mut one = *placing;
            right(&mut one, seats.min(1));
            let answer = right(placing, seats);
            placing.seats = one.seats;
            answer
        },
        found: &[By::Calls, By::Way, By::Sums],
    },
    Wrong {
        name: "one seat at most",
        mover: |placing, seats| right(placing, seats.min(1)),
        found: &[By::Calls, By::Way, By::Sums],
    },
    Wrong {
        name: "nothing where the house is nearer than was asked",
        mover: |placing, seats| {
            let mut whole = *placing;
            let answer = right(&mut whole, seats);
            if answer.moved < seats {
                return right(placing, 0);
            }
            *placing = whole;
            answer
        },
        found: &[By::Calls, By::Way, By::Sums],
    },
    Wrong {
        name: "a foreign placing accepted by 0",
        mover: |placing, seats| match seats {
            0 => NONE_MOVED,
            _ => right(placing, seats),
        },
        found: &[By::Calls, By::Sums],
    },
    Wrong {
        name: "a foreign placing accepted at its house",
        mover: |placing, seats| match placing.total == placing.house {
            true => NONE_MOVED,
            false => right(placing, seats),
        },
        found: &[By::Calls],
    },
    Wrong {
        name: "what stands past the states forgiven",
        mover: |placing, seats| {
            let mut own = plain(placing);
            let n = own.states.min(own.seats.len() as u64) as usize;
            own.seats[n..].fill(0);
            own.populations[n..].fill(0);
            let answer = own.advance(seats);
            if answer.is_ok() {
                *placing = in_c(&own);
            }
            moved(answer)
        },
        found: &[By::Calls],
    },
    Wrong {
        name: "refused at the house",
        mover: |placing, seats| match placing.total == placing.house {
            true => moved(Err(FOREIGN)),
            false => right(placing, seats),
        },
        found: &[By::Calls, By::Way, By::Sums],
    },
    Wrong {
        name: "the number cut to 32 bits",
        mover: |placing, seats| right(placing, seats as u32 as u64),
        found: &[By::Calls],
    },
    Wrong {
        name: "steps counted by calls",
        mover: |placing, seats| {
            let steps = placing.steps;
            let answer = right(placing, seats);
            if answer.moved > 0 {
                placing.steps = steps + 1;
            }
            answer
        },
        found: &[By::Calls, By::Way, By::Sums],
    },
];

const NONE_MOVED: ffi::Moved = ffi::Moved {
    refusal: 0,
    moved: 0,
};

const FOREIGN: Refusal = Refusal {
    number: 21,
    line: 0,
};

const NOTHING: Placing = Placing {
    states: 0,
    house: 0,
    total: 0,
    steps: 0,
    populations: [0; reference::STATES_LIMIT],
    seats: [0; reference::STATES_LIMIT],
};

/// Whether a case finds a mover in some way.
fn is_found(mover: Mover, case: &Case, by: By) -> bool {
    let counts = &mut Counts::default();
    let outcome = match (by, case) {
        (By::Calls, Case::Moves { placing, asked }) => check_each(mover, placing, asked, counts),
        (By::Sums, Case::Moves { placing, asked }) => check_sums(mover, placing, asked, counts),
        (By::Way, Case::Walk { house, populations }) => {
            match reference::open(populations, *house) {
                Ok(opened) => check_way(mover, &opened, counts),
                Err(_) => Ok(()),
            }
        }
        _ => Ok(()),
    };
    outcome.is_err()
}

/// How often a mover is found by some cases, in each of the ways.
fn times_found(mover: Mover, cases: &[Case]) -> [u64; WAYS.len()] {
    WAYS.map(|by| {
        let found = cases.iter().filter(|case| is_found(mover, case, by));
        found.count() as u64
    })
}

/// Whether the case has few states, if it is about moving: on more of them, a wrong mover that asks
/// the plain desk takes long.
fn is_quick(case: &Case) -> bool {
    match case {
        Case::Moves { placing, .. } => placing.states <= 40,
        Case::Walk { populations, .. } => populations.len() <= 40,
        _ => false,
    }
}

#[test]
fn wrong_movers_are_found() {
    let inputs = Inputs::new(1);
    let cases = |numbers: std::ops::Range<u64>| -> Vec<Case> {
        let cases = numbers.map(|number| inputs.get(number));
        cases.filter(is_quick).collect()
    };
    let fixed = cases(0..inputs.fixed());
    let seeded = cases(inputs.fixed()..inputs.fixed() + 10_000);
    assert_eq!(times_found(right, &fixed), [0; WAYS.len()]);
    assert_eq!(times_found(right, &seeded), [0; WAYS.len()]);
    for wrong in WRONG {
        let times = [&fixed, &seeded].map(|cases| times_found(wrong.mover, cases));
        for (way, by) in WAYS.iter().enumerate() {
            let [fixed, seeded] = times.map(|times| times[way]);
            if wrong.found.contains(by) {
                assert!(fixed > 0 && seeded > 3, "{}, {by:?}: {times:?}", wrong.name);
            }
        }
    }
}

/// What the seeded moves have been, by kind.
#[derive(Debug, Default)]
struct Seen {
    lengths: HashSet<usize>,
    /// Placings at the start, on the way, at the house, and foreign ones.
    start: u64,
    way: u64,
    house: u64,
    foreign: u64,
    /// Foreign placings whose total is their house, and those asked for 0 first.
    foreign_at_house: u64,
    foreign_by_none: u64,
    /// Moves of genuine placings, by 0, by 1, by the largest number, by one less than is left to the
    /// house, by just as many and by one more.
    none: u64,
    one: u64,
    largest: u64,
    but_one: u64,
    all: u64,
    one_more: u64,
    /// Neighbours in a list whose sum is the largest number, and those whose sum passes it.
    sum_largest: u64,
    sum_past: u64,
}

impl Seen {
    fn count(&mut self, placing: &Placing, asked: &[u64]) {
        self.lengths.insert(asked.len());
        for pair in asked.windows(2) {
            let sum = pair[0].checked_add(pair[1]);
            self.sum_largest += (sum == Some(u64::MAX)) as u64;
            self.sum_past += sum.is_none() as u64;
        }
        let at_house = placing.total == placing.house;
        if !placing.is_genuine() {
            self.foreign += 1;
            self.foreign_at_house += at_house as u64;
            self.foreign_by_none += (asked.first() == Some(&0)) as u64;
            return;
        }
        match placing.steps {
            _ if at_house => self.house += 1,
            0 => self.start += 1,
            _ => self.way += 1,
        }
        let mut left = placing.total.abs_diff(placing.house);
        for &seats in asked {
            self.none += (seats == 0) as u64;
            self.one += (seats == 1) as u64;
            self.largest += (seats == u64::MAX) as u64;
            if left > 1 {
                self.but_one += (seats == left - 1) as u64;
                self.all += (seats == left) as u64;
                self.one_more += (seats == left + 1) as u64;
            }
            left = left.saturating_sub(seats);
        }
    }
}

#[test]
fn seeded_moves_are_of_every_kind() {
    let inputs = Inputs::new(1);
    let mut seen = Seen::default();
    for number in inputs.fixed()..inputs.fixed() + 20_000 {
        if let Case::Moves { placing, asked } = inputs.get(number) {
            seen.count(&placing, &asked);
        }
    }
    assert_eq!(seen.lengths, (0..=6).collect());
    let placings = [seen.start, seen.way, seen.house, seen.foreign];
    let foreign = [seen.foreign_at_house, seen.foreign_by_none];
    let small = [seen.none, seen.one, seen.largest];
    let near = [seen.but_one, seen.all, seen.one_more];
    let sums = [seen.sum_largest, seen.sum_past];
    let all = [&placings[..], &foreign, &small, &near, &sums].concat();
    assert!(all.iter().all(|&times| times > 25), "{seen:?}");
}

/// The counts after a line was run alone.
fn replayed(line: &str) -> Counts {
    let case = Case::parse(line).expect("a line of an input");
    assert_eq!(case.to_string(), line);
    let mut counts = Counts::default();
    check(&case, &mut counts).unwrap();
    counts
}

#[test]
fn the_law_of_two_moves_is_asked_where_their_sum_is_a_number() {
    let asked = |numbers: &str| {
        let counts = replayed(&format!("moves 4 4 7 0 1,1,1,97 1,1,1,4 {numbers}"));
        [counts.sums, counts.halts]
    };
    assert_eq!(asked("-"), [0, 0]);
    assert_eq!(asked("3"), [0, 0]);
    assert_eq!(asked("1,2"), [1, 1]);
    assert_eq!(asked("1,1,1"), [2, 2]);
    assert_eq!(asked("0,3,0"), [2, 0]);
    assert_eq!(asked("1,18446744073709551614"), [1, 1]);
    assert_eq!(asked("2,18446744073709551614"), [0, 0]);
    assert_eq!(asked("18446744073709551615,18446744073709551615"), [0, 0]);
    // A foreign placing is refused by either and by the sum.
    let foreign = replayed("moves 4 4 7 1 1,1,1,97 1,1,1,4 1,2");
    assert_eq!([foreign.sums, foreign.halts], [1, 0]);
    assert_eq!(foreign.refusals[21], foreign.calls);
    for line in [
        "moves 4 4 7 0 1,1,1,97 1,1,1,4",
        "moves 4 4 7 0 1,1,1,97 1,1,1,4 1,-1",
        "moves 4 4 7 0 1,1,1,97 1,1,1,4 18446744073709551616",
        "moves 4 4 7 0 1,1,1,97 1,1,1,4 1 2",
    ] {
        assert_eq!(Case::parse(line), None, "{line}");
    }
}
