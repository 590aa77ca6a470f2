//! A short run of the comparison, and what makes a long one worth reading: every refusal is met,
//! the limits, departures that are hard to round, seats that a wrong quota method would give to
//! another state and polls that would break a wrong law are reached by chance too, and a printed
//! input is the input that was run.

use compare::growth::{one_seat_more, two_polls, Poll, ONE_SEAT_MORE, TWO_POLLS};
use compare::{check, Case, Counts, Inputs, Outcomes};
use reference::{allot, Method, BYTES_LIMIT, HOUSE_LIMIT, SHOWN_SCALE, STATES_LIMIT};
use std::collections::HashSet;

#[test]
fn the_fixed_inputs_and_some_seeded_ones_agree_and_meet_every_refusal() {
    let inputs = Inputs::new(1);
    let mut counts = Counts::default();
    for number in 0..inputs.fixed() + 4_000 {
        let case = inputs.get(number);
        if let Err(difference) = check(&case, &mut counts) {
            panic!("input {number} differs: {difference}\n  --replay '{case}'");
        }
    }
    for number in [
        0, 1, 2, 3, 4, 5, 6, 7, 10, 11, 12, 13, 14, 15, 21, 30, 31, 40,
    ] {
        assert!(counts.refusals[number] > 0, "{number} was never met");
    }
    assert!(counts.searched > 400);
    assert!(counts.copies > 1_000);
}

fn lines(bytes: &[u8]) -> usize {
    bytes.iter().filter(|&&byte| byte == b'\n').count()
}

/// House and states of an input; a register's are those of its head, if it has as many lines.
fn house_and_states(case: &Case) -> Option<(u64, usize)> {
    match case {
        Case::Register { bytes, .. } | Case::Copies { first: bytes, .. } => {
            let text = std::str::from_utf8(bytes).ok()?;
            let fields: Vec<&str> = text.lines().next()?.split(',').collect();
            let [_, _, house, states] = fields[..] else {
                return None;
            };
            let states = states.parse().ok()?;
            (lines(bytes).checked_sub(2) == Some(states)).then_some((house.parse().ok()?, states))
        }
        Case::Allot {
            house, populations, ..
        }
        | Case::Walk { house, populations } => Some((*house, populations.len())),
        Case::Moves { placing, .. } => Some((placing.house, placing.states as usize)),
        Case::Departure { house, .. } => Some((*house, 1)),
        Case::Growth {
            house, populations, ..
        } => Some((*house, populations.len())),
        Case::Polls { house, before, .. } => Some((*house, before.len())),
    }
}

#[test]
fn seeded_inputs_reach_the_limits() {
    let inputs = Inputs::new(1);
    let mut houses = HashSet::new();
    let mut states = HashSet::new();
    let mut lengths = HashSet::new();
    let (mut larger_houses, mut more_states, mut many_lines) = (0, 0, 0);
    for number in inputs.fixed()..inputs.fixed() + 20_000 {
        let case = inputs.get(number);
        if let Case::Register { bytes, .. } = &case {
            lengths.insert(bytes.len());
            many_lines += (bytes.len() > 45_000 && lines(bytes) > STATES_LIMIT) as u64;
        }
        if let Some((house, n)) = house_and_states(&case) {
            houses.insert((case.kind(), house));
            states.insert((case.kind(), n));
            larger_houses += (HOUSE_LIMIT / 3..=HOUSE_LIMIT).contains(&house) as u64;
            more_states += (STATES_LIMIT / 3..=STATES_LIMIT).contains(&n) as u64;
        }
    }
    for (kind, name) in Case::KINDS.iter().enumerate() {
        for house in HOUSE_LIMIT - 1..=HOUSE_LIMIT + 1 {
            assert!(houses.contains(&(kind, house)), "{name} {house}");
        }
        for n in STATES_LIMIT - 1..=STATES_LIMIT + 1 {
            let met = states.contains(&(kind, n));
            assert!(met || *name == "departure", "{name} {n}");
        }
    }
    for length in [BYTES_LIMIT, BYTES_LIMIT + 1] {
        assert!(lengths.contains(&length), "{length}");
    }
    assert!(larger_houses > 600, "{larger_houses}");
    assert!(more_states > 600, "{more_states}");
    assert!(many_lines > 20, "{many_lines}");
}

/// Departures that are hard to round, by kind.
#[derive(Debug, Default)]
struct Roundings {
    /// True halves above zero and below it.
    halves: [u64; 2],
    /// Those shown as zero that are above it and below it.
    zeros: [u64; 2],
    /// Those whose numerator times the scale passes 63 bits.
    large: u64,
}

impl Roundings {
    /// Counts the departure of a state with seats.
    fn count(&mut self, population: u64, seats: u64, total: u64, house: u64) {
        let seated = seats as i128 * total as i128;
        let distance = population as i128 * house as i128 - seated;
        let below = (distance < 0) as usize;
        let scaled = SHOWN_SCALE as i128 * distance.abs();
        if scaled % seated * 2 == seated {
            self.halves[below] += 1;
        }
        if distance != 0 && scaled * 2 < seated {
            self.zeros[below] += 1;
        }
        self.large += (scaled > i64::MAX as i128) as u64;
    }
}

/// Counts the departures that a register's listing shows, if it is written.
fn count_listed(bytes: &[u8], room: usize, roundings: &mut Roundings) {
    if reference::write_listing(bytes, &mut vec![0; room]).is_err() {
        return;
    }
    let register = reference::read(bytes).expect("a register that was listed");
    let (house, populations) = (register.house, &register.populations);
    let mut seats = vec![0; populations.len()];
    reference::allot(register.method, house, populations, &mut seats)
        .expect("a house that was listed");
    for (&population, &seats) in populations.iter().zip(&seats) {
        if seats > 0 {
            roundings.count(population, seats, register.total, house);
        }
    }
}

#[test]
fn seeded_inputs_reach_departures_that_are_hard_to_round() {
    let inputs = Inputs::new(1);
    let mut single = Roundings::default();
    let mut listed = Roundings::default();
    for number in inputs.fixed()..inputs.fixed() + 20_000 {
        match inputs.get(number) {
            Case::Departure {
                population,
                seats,
                total,
                house,
            } => {
                let answer = reference::departure(population, seats, total, house);
                if let Ok(Some(_)) = answer {
                    single.count(population, seats, total, house);
                }
            }
            Case::Register { room, bytes, .. } => count_listed(&bytes, room, &mut listed),
            _ => (),
        }
    }
    for met in [single.halves, single.zeros, listed.halves, listed.zeros] {
        assert!(met[0] > 25 && met[1] > 25, "{single:?} {listed:?}");
    }
    assert!(single.large > 50, "{single:?}");
}

/// A state as the quota method sees it: population, seats, and the sum of all populations.
#[derive(Clone, Copy)]
struct State {
    p: u64,
    a: u64,
    sum: u64,
}

/// A quota method with rules of its own: whether a state may have the seat numbered h, and whether
/// a later state comes before an earlier one. Where none may have it, the first state has it.
struct Rules {
    name: &'static str,
    able: fn(State, u64) -> bool,
    before: fn(State, State) -> bool,
}

const RIGHT: Rules = Rules {
    name: "the right one",
    able: |state, h| state.a * state.sum < state.p * h,
    before: |later, earlier| later.p * (earlier.a + 1) > earlier.p * (later.a + 1),
};

const WRONG: [Rules; 6] = [
    Rules {
        name: "equal quotients to the later state",
        before: |later, earlier| later.p * (earlier.a + 1) >= earlier.p * (later.a + 1),
        ..RIGHT
    },
    Rules {
        name: "able at its share too",
        able: |state, h| state.a * state.sum <= state.p * h,
        ..RIGHT
    },
    Rules {
        name: "able by the seats before",
        able: |state, h| state.a * state.sum < state.p * (h - 1),
        ..RIGHT
    },
    Rules {
        name: "able by the seat after",
        able: |state, h| state.a * state.sum < state.p * (h + 1),
        ..RIGHT
    },
    Rules {
        name: "p / a",
        before: |later, earlier| later.p * earlier.a > earlier.p * later.a,
        ..RIGHT
    },
    Rules {
        name: "all able",
        able: |_, _| true,
        ..RIGHT
    },
];

impl Rules {
    fn seats(&self, house: u64, populations: &[u64]) -> Vec<u64> {
        let sum = populations.iter().sum();
        let mut seats = vec![0; populations.len()];
        for h in 1..=house {
            let state = |i: usize| State {
                p: populations[i],
                a: seats[i],
                sum,
            };
            let able = (0..seats.len()).filter(|&i| (self.able)(state(i), h));
            let first = able.reduce(|earlier, later| {
                if (self.before)(state(later), state(earlier)) {
                    later
                } else {
                    earlier
                }
            });
            seats[first.unwrap_or(0)] += 1;
        }
        seats
    }
}

#[test]
fn seeded_inputs_tell_the_quota_method_from_wrong_ones() {
    let inputs = Inputs::new(1);
    let mut tried = HashSet::new();
    let mut told = [0; WRONG.len()];
    let mut below = 0;
    for number in inputs.fixed()..inputs.fixed() + 20_000 {
        let Case::Allot {
            method,
            house,
            populations,
            ..
        } = inputs.get(number)
        else {
            continue;
        };
        if method != Method::Quota as u64 {
            continue;
        }
        let mut seats = vec![0; populations.len()];
        let allotted = allot(Method::Quota, house, &populations, &mut seats);
        if allotted.is_err() || house * seats.len() as u64 > 100_000 {
            continue;
        }
        assert_eq!(RIGHT.seats(house, &populations), seats, "{}", RIGHT.name);
        for (told, wrong) in told.iter_mut().zip(WRONG) {
            *told += (wrong.seats(house, &populations) != seats) as u64;
        }
        below += (house < seats.len() as u64) as u64;
        tried.insert((populations, house));
    }
    for (told, wrong) in told.into_iter().zip(WRONG) {
        assert!(told > 25, "{}: {told}", wrong.name);
    }
    assert!(below > 20, "houses below the states: {below}");
    let next = |(populations, house): &(Vec<u64>, u64)| (populations.clone(), house + 1);
    let in_a_row = tried.iter().filter(|one| tried.contains(&next(one)));
    assert!(in_a_row.count() > 50);
}

/// The plain desk's seats, if it does not refuse.
fn seats(method: u64, house: u64, populations: &[u64]) -> Option<Vec<u64>> {
    let method = *Method::ALL.get(usize::try_from(method).ok()?)?;
    let mut seats = vec![0; populations.len()];
    allot(method, house, populations, &mut seats).ok()?;
    Some(seats)
}

/// The plain desk's seats if the register is turned round: of equal claims the last comes first.
fn seats_turned_round(method: u64, house: u64, populations: &[u64]) -> Option<Vec<u64>> {
    let turned: Vec<u64> = populations.iter().rev().copied().collect();
    let mut seats = seats(method, house, &turned)?;
    seats.reverse();
    Some(seats)
}

/// Two lists: at a house and with one seat more, or before and after.
type Two<'a> = [&'a [u64]; 2];

#[test]
fn excepted_methods_break_the_law_of_one_seat_more() {
    let examples: [(Method, &[u64], Two); 2] = [
        (Method::Leximin, &[69, 70, 150], [&[3, 3, 8], &[4, 4, 7]]),
        (Method::Remainders, &[1, 3, 3], [&[1, 1, 1], &[0, 2, 2]]),
    ];
    for (method, populations, expected) in examples {
        let house = expected[0].iter().sum();
        let allotted = [house, house + 1].map(|h| seats(method as u64, h, populations).unwrap());
        assert_eq!(allotted, expected);
        assert!(one_seat_more(&allotted[0], &allotted[1]).is_err());
        for keeping in ONE_SEAT_MORE {
            let allotted = [house, house + 1].map(|h| seats(keeping as u64, h, populations));
            let [Some(smaller), Some(larger)] = allotted else {
                panic!("{keeping:?} refuses {populations:?}");
            };
            assert_eq!(one_seat_more(&smaller, &larger), Ok(()), "{keeping:?}");
        }
    }
}

/// Whether counts before and after break the law of two polls with seats before and after.
fn breaks(counts: Two, seats: Two) -> bool {
    let poll = |k: usize| Poll {
        counts: counts[k],
        seats: seats[k],
    };
    two_polls(poll(0), poll(1)).is_err()
}

#[test]
fn excepted_methods_break_the_law_of_two_polls() {
    use Method::{Leximin, Quota, Remainders};
    // The least found for each: the state that loses has grown by as large a factor as one that
    // gains, and then by a larger one.
    let examples: [(Method, Two, Two); 6] = [
        (Quota, [&[2, 1, 1], &[4, 2, 1]], [&[1, 1, 0], &[2, 0, 0]]),
        (Quota, [&[1, 1, 4], &[2, 1, 7]], [&[1, 0, 2], &[0, 0, 3]]),
        (Leximin, [&[1, 2, 7], &[2, 2, 7]], [&[1, 2, 4], &[1, 1, 5]]),
        (Leximin, [&[1, 2, 7], &[3, 3, 10]], [&[1, 2, 4], &[1, 1, 5]]),
        (
            Remainders,
            [&[1, 1, 3], &[3, 1, 3]],
            [&[1, 0, 2], &[1, 1, 1]],
        ),
        (
            Remainders,
            [&[2, 2, 5], &[3, 1, 3]],
            [&[1, 0, 2], &[1, 1, 1]],
        ),
    ];
    for (method, counts, expected) in examples {
        let house = expected[0].iter().sum();
        let allotted = |method: Method| counts.map(|counts| seats(method as u64, house, counts));
        assert_eq!(allotted(method).map(Option::unwrap), expected);
        assert!(breaks(counts, expected), "{method:?}");
        for keeping in TWO_POLLS {
            if let [Some(before), Some(after)] = &allotted(keeping) {
                assert!(!breaks(counts, [before, after]), "{keeping:?}");
            }
        }
    }
}

/// What comes of the laws of growth on some inputs, all others left out.
fn laws_of_growth(cases: impl Iterator<Item = Case>) -> Counts {
    let mut counts = Counts::default();
    for case in cases {
        if let Case::Growth { .. } | Case::Polls { .. } = case {
            check(&case, &mut counts).unwrap();
        }
    }
    counts
}

#[test]
fn every_run_shows_that_the_laws_can_be_broken() {
    let inputs = Inputs::new(1);
    let counts = laws_of_growth((0..inputs.fixed()).map(|number| inputs.get(number)));
    let broken = |law: &Outcomes| law.broken.map(|times| times > 0);
    let excepted = |keep: &[Method]| Method::ALL.map(|method| !keep.contains(&method));
    assert_eq!(broken(&counts.one_seat_more), excepted(&ONE_SEAT_MORE));
    assert_eq!(broken(&counts.two_polls), excepted(&TWO_POLLS));
}

#[test]
fn seeded_inputs_put_the_laws_of_growth_to_the_test() {
    let inputs = Inputs::new(1);
    let numbers = inputs.fixed()..inputs.fixed() + 60_000;
    let counts = laws_of_growth(numbers.map(|number| inputs.get(number)));
    for method in Method::ALL {
        let met = |keep: &[Method], [held, broken]: [u64; 2]| {
            if keep.contains(&method) {
                held > 200 && broken == 0
            } else {
                held == 0 && broken > 1
            }
        };
        let of = |law: &Outcomes| [law.held, law.broken].map(|counts| counts[method as usize]);
        let (more, polls) = (of(&counts.one_seat_more), of(&counts.two_polls));
        assert!(met(&ONE_SEAT_MORE, more), "{method:?} {more:?}");
        assert!(met(&TWO_POLLS, polls), "{method:?} {polls:?}");
    }
    let held: u64 = counts.two_polls.held.iter().sum();
    assert!(counts.moved * 2 > held, "{} of {held}", counts.moved);
}

/// Two polls under a method that keeps their law, and the plain desk's seats by each.
struct Polled {
    method: Method,
    house: u64,
    counts: [Vec<u64>; 2],
    seats: [Vec<u64>; 2],
}

/// A case as two polls, if it is one that the law is asked of.
fn polled(case: Case) -> Option<Polled> {
    let Case::Polls {
        method,
        house,
        before,
        after,
    } = case
    else {
        return None;
    };
    let kept = TWO_POLLS.into_iter().find(|&kept| kept as u64 == method)?;
    let allotted = [
        seats(method, house, &before)?,
        seats(method, house, &after)?,
    ];
    (before.len() == after.len()).then_some(Polled {
        method: kept,
        house,
        counts: [before, after],
        seats: allotted,
    })
}

/// How many of the seeded polls would break the law of two polls, if it or the desk were wrong.
#[derive(Clone, Copy, Debug, Default)]
struct Wrong {
    /// With the factors compared the other way round.
    other_way: u64,
    /// With a voter more, in the second poll, in each state that loses.
    voter_more: u64,
    /// With equal claims met in the other order in the second poll.
    other_order: u64,
}

#[test]
fn seeded_polls_would_break_a_wrong_law() {
    let inputs = Inputs::new(1);
    let mut wrong = [Wrong::default(); Method::ALL.len()];
    for number in inputs.fixed()..inputs.fixed() + 60_000 {
        let Some(polled) = polled(inputs.get(number)) else {
            continue;
        };
        let ([before, after], [had, has]) = (&polled.counts, &polled.seats);
        assert!(!breaks([before, after], [had, has]));
        let wrong = &mut wrong[polled.method as usize];
        wrong.other_way += breaks([after, before], [had, has]) as u64;
        let raised: Vec<u64> = (0..after.len())
            .map(|i| after[i] + (has[i] < had[i]) as u64)
            .collect();
        wrong.voter_more += breaks([before, &raised], [had, has]) as u64;
        let other = seats_turned_round(polled.method as u64, polled.house, after).unwrap();
        wrong.other_order += breaks([before, after], [had, &other]) as u64;
    }
    for method in TWO_POLLS {
        let wrong = wrong[method as usize];
        assert!(wrong.other_way > 100, "{method:?} {wrong:?}");
        assert!(wrong.voter_more > 10, "{method:?} {wrong:?}");
        assert!(wrong.other_order > 25, "{method:?} {wrong:?}");
    }
}

/// The counts after a line was run alone.
fn replayed(line: &str) -> Counts {
    let case = Case::parse(line).expect("a line of an input");
    assert_eq!(case.to_string(), line);
    let mut counts = Counts::default();
    check(&case, &mut counts).unwrap();
    counts
}

#[test]
fn where_one_allotment_is_refused_no_law_is_asked() {
    let sum = |numbers: &[u64]| numbers.iter().sum::<u64>();
    let asked = |line: &str| {
        let counts = replayed(line);
        let laws = [&counts.one_seat_more, &counts.two_polls];
        laws.map(|law| sum(&law.held) + sum(&law.broken))
    };
    // The same with nothing to refuse, so that the laws are asked.
    for line in [
        "growth 1 3 1,2,3",
        "growth 7 1 1,2,3",
        "growth 0 14 69,70,150",
    ] {
        assert_eq!(asked(line), [1, 0], "{line}");
    }
    for line in ["polls 1 3 1,2,3 3,2,1", "polls 5 1 1,2,3 3,2,1"] {
        assert_eq!(asked(line), [0, 1], "{line}");
    }
    for line in [
        "growth 1 2 1,2,3",
        "growth 1 0 1",
        "growth 1 30000 1,2,3",
        "growth 1 18446744073709551614 1,2,3",
        "growth 1 18446744073709551615 1,2,3",
        "growth 8 3 1,2,3",
        "growth 18446744073709551615 3 1,2,3",
        "growth 1 3 1,0,3",
        "growth 1 3 1,18446744073709551615,18446744073709551615",
        "growth 1 3 -",
        "polls 1 2 1,2,3 3,2,1",
        "polls 1 3 1,2,3 3,2",
        "polls 1 3 1,2 3,2,1",
        "polls 1 3 1,2,3 3,0,1",
        "polls 1 3 0,2,3 3,2,1",
        "polls 1 18446744073709551615 1,2,3 3,2,1",
        "polls 8 3 1,2,3 3,2,1",
        "polls 1 3 1,2,3 18446744073709551615,18446744073709551615,1",
        "polls 1 3 - 3,2,1",
        "polls 1 3 1,2,3 -",
    ] {
        assert_eq!(asked(line), [0, 0], "{line}");
    }
    // There is no house after the largest number, and it is not asked for.
    assert_eq!(replayed("growth 1 18446744073709551614 1,2,3").calls, 2);
    assert_eq!(replayed("growth 1 18446744073709551615 1,2,3").calls, 1);
    for line in [
        "growth 1 3",
        "growth 1 3 1,2 2,3",
        "polls 1 3 1,2",
        "polls 1 -3 1 1",
    ] {
        assert_eq!(Case::parse(line), None, "{line}");
    }
}

#[test]
fn a_printed_input_is_the_input_itself() {
    let inputs = Inputs::new(2);
    for number in 0..inputs.fixed() + 4_000 {
        let case = inputs.get(number);
        assert_eq!(Case::parse(&case.to_string()), Some(case));
    }
}
