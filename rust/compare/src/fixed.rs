//! Inputs that every run begins with: the document's examples, departures that are hard to round,
//! the limits, equal quotients at the largest seats, the quota method at every house of some
//! problems and at the limits, one seat more and two polls, pairs of registers to be cleaned, the
//! longest walk, lists of moves, the longest registers, and one register cut, changed, filled and
//! thinned at every byte.

use crate::copies::Content;
use crate::damage::{self, Draft};
use crate::growth::ONE_SEAT_MORE;
use crate::random::Random;
use crate::{seeded, Case, METHODS, MOST_STATES};
use reference::{way, Method, Placing, BYTES_LIMIT, HOUSE_LIMIT, STATES_LIMIT, SUM_LIMIT};

/// The fixed inputs; the seed settles only which room and place a register is tried with, and
/// which sound register is damaged beside the document's own.
pub fn fixed(seed: u64) -> Vec<Case> {
    let random = &mut Random::new(seed, u64::MAX);
    let mut cases = examples();
    cases.extend(departures());
    cases.extend(listed_departures());
    cases.extend(limits(random));
    cases.extend(largest_seats());
    cases.extend(every_house());
    cases.extend(quota_limits());
    cases.extend(quota_words());
    cases.extend(one_seat_more());
    cases.extend(one_seat_more_limits());
    cases.extend(two_polls());
    cases.extend(copies());
    cases.extend(longest_copies());
    cases.extend(longest_walk());
    cases.extend(moves());
    cases.extend(foreign_moves());
    cases.extend(longest_registers(random));
    cases.extend(alike(random));
    let listed = b"register,leximin,20,5\r\nA,26\nB,27\r\nC,28\nD,29\nE,91\ntotal,201\n".to_vec();
    let small = (0..).map(|_| damage::sound(random).bytes());
    let small: Vec<u8> = small
        .filter(|bytes| bytes.len() < 150)
        .take(1)
        .flatten()
        .collect();
    for register in [listed, small] {
        for bytes in at_every_byte(&register) {
            cases.push(seeded::around(random, bytes));
        }
    }
    cases
}

/// The register cut before every byte; and at every byte one changed, put in, doubled, taken out.
fn at_every_byte(register: &[u8]) -> Vec<Vec<u8>> {
    let mut all = vec![register.to_vec()];
    for at in 0..register.len() {
        let (before, byte, after) = (&register[..at], &register[at..=at], &register[at + 1..]);
        all.push(before.to_vec());
        all.push([before, after].concat());
        all.push([before, byte, byte, after].concat());
        for other in b",\n\r 09a\x00\x7f\xff" {
            all.push([before, &[*other], after].concat());
            all.push([before, &[*other], byte, after].concat());
        }
    }
    for other in b",\n\r 09a\x00\x7f\xff" {
        all.push([register, &[*other]].concat());
    }
    all
}

/// The allotments and placings that the document names, some where moves are parted by register
/// order alone, some where equal remainders are parted by population, and one where the methods
/// part from each other and from the quota.
fn examples() -> Vec<Case> {
    let problems: [(u64, &[u64]); 24] = [
        (20, &[26, 27, 28, 29, 91]),
        (14, &[69, 70, 150]),
        (15, &[69, 70, 150]),
        (3, &[100, 200]),
        (4, &[100, 200]),
        (10, &[4, 13, 13]),
        (10, &[10, 5, 5, 5, 5, 5, 5]),
        (2, &[1, 1000]),
        (3, &[5, 5, 5]),
        (2, &[5, 5, 5]),
        (5, &[7]),
        (3, &[3, 3]),
        (2, &[1, 99]),
        (2, &[1, 3]),
        (6, &[1, 1, 2]),
        (6, &[238, 140, 252]),
        (5, &[252, 140, 133]),
        (8, &[3, 5, 10]),
        (4, &[4, 1, 7]),
        (8, &[1, 4, 7]),
        (4, &[1, 1, 5, 1]),
        (5, &[1, 2, 3, 7, 12]),
        (HOUSE_LIMIT, &[85_899, 1_431_741_664, 2_863_139_732]),
        (100, &[5_117, 4_400, 162, 161, 160]),
    ];
    let mut cases = Vec::new();
    for (house, populations) in problems {
        for method in 0..=METHODS {
            cases.push(allot(method, house, populations));
        }
        cases.push(Case::Walk {
            house,
            populations: populations.to_vec(),
        });
    }
    cases
}

/// Allotting into a list of the right length.
fn allot(method: u64, house: u64, populations: &[u64]) -> Case {
    Case::Allot {
        method,
        house,
        room: populations.len(),
        populations: populations.to_vec(),
    }
}

/// The population of a state and the total with which, at one seat of two, its departure is an
/// example of the document's, a true half of a thousandth of a per cent, less than one, or just
/// past the limit of a mark.
const OF_TWO_SEATS: [(u64, u64); 14] = [
    (11, 20),
    (1_101, 2_000),
    (115_004, 200_000),
    (110_001, 200_000),
    (200_001, 400_000),
    (199_999, 400_000),
    (200_003, 400_000),
    (199_997, 400_000),
    (250_001, 500_000),
    (249_999, 500_000),
    (1_100_001, 2_000_000),
    (899_999, 2_000_000),
    (1_150_001, 2_000_000),
    (849_999, 2_000_000),
];

/// These departures at other seats too, one of a population above its total, and true halves and
/// their neighbours at the limits.
fn departures() -> Vec<Case> {
    let mut cases = Vec::new();
    let mut push = |population, seats, total, house| {
        cases.push(Case::Departure {
            population,
            seats,
            total,
            house,
        })
    };
    for (population, total) in OF_TWO_SEATS.into_iter().chain([(5, 4)]) {
        for seats in 0..=3 {
            push(population, seats, total, 2);
        }
    }
    for (population, seats) in [
        (133_334, 1),
        (3_999_999_998, 1),
        (20_000, HOUSE_LIMIT),
        (60_000, HOUSE_LIMIT),
    ] {
        for population in population - 1..=population + 1 {
            push(population, seats, 4_000_000_000, HOUSE_LIMIT);
        }
    }
    cases
}

/// Registers whose listings show such departures, in just as much room as these need: two states
/// with a seat each; at the limits, a true half and a state shown as zero from below; and a giant
/// among states of one voter, which departs by some 79,900 per cent where every state has a seat.
fn listed_departures() -> Vec<Case> {
    let two = |(population, total)| (2, vec![population, total - population]);
    let mut problems: Vec<(u64, Vec<u64>)> = OF_TWO_SEATS.map(two).to_vec();
    problems.push((HOUSE_LIMIT, vec![133_334, 3_999_866_666]));
    problems.push((MOST_STATES, giant()));
    let mut cases = Vec::new();
    for (house, populations) in problems {
        let names = damage::names(damage::LONG_NAMES, populations.len());
        for method in Method::ALL {
            let bytes = Draft::plain(method.name(), house, &names, &populations).bytes();
            let listing = reference::listing(&bytes).expect("a sound register");
            cases.push(Case::Register {
                room: listing.len(),
                place: 0,
                bytes,
            });
        }
    }
    cases
}

/// As many states as can be, one of which has all voters but one for each other.
fn giant() -> Vec<u64> {
    giant_among(STATES_LIMIT)
}

/// So many states, one of which has all voters but one for each other.
fn giant_among(n: usize) -> Vec<u64> {
    let mut populations = vec![1; n];
    populations[n / 2] = SUM_LIMIT - (n as u64 - 1);
    populations
}

/// States, house, sum and bytes at their limits and just past them.
fn limits(random: &mut Random) -> Vec<Case> {
    let mut cases = Vec::new();
    for n in [1, STATES_LIMIT - 1, STATES_LIMIT, STATES_LIMIT + 1] {
        let ones = vec![1; n];
        let mut large: Vec<u64> = (0..n as u64).map(|i| 1 + i * i).collect();
        large[n / 2] += SUM_LIMIT - large.iter().sum::<u64>();
        let equal = vec![SUM_LIMIT / n as u64; n];
        let mut past = large.clone();
        past[0] += 1;
        for populations in [ones, large, equal, past] {
            for house in [
                0,
                1,
                n as u64 - 1,
                n as u64,
                2 * n as u64 - 1,
                HOUSE_LIMIT - 1,
                HOUSE_LIMIT,
                HOUSE_LIMIT + 1,
            ] {
                for method in 0..METHODS {
                    cases.push(allot(method, house, &populations));
                }
                cases.push(Case::Walk {
                    house,
                    populations: populations.clone(),
                });
                let methods = ["leximin", "dean", "hill", "webster", "remainders", "quota"];
                let method = random.pick(&methods);
                let names = damage::names(damage::LONG_NAMES, n);
                let bytes = Draft::plain(method, house, &names, &populations).bytes();
                cases.push(seeded::around(random, bytes));
            }
        }
    }
    for length in [0, BYTES_LIMIT - 1, BYTES_LIMIT, BYTES_LIMIT + 1, 70_000] {
        for filler in [b'x', b'\n', b'0', b','] {
            cases.push(seeded::around(random, vec![filler; length]));
            let mut bytes = b"register,hill,3,2\nA,1\nB,2\ntotal,3\n".to_vec();
            bytes.resize(length.max(bytes.len()), filler);
            cases.push(seeded::around(random, bytes));
        }
    }
    let past = HOUSE_LIMIT + 1;
    let corners = [0, 1, HOUSE_LIMIT, past, SUM_LIMIT, SUM_LIMIT + 1, u64::MAX];
    for population in corners {
        for total in corners {
            for (seats, house) in [
                (0, 1),
                (1, 1),
                (1, HOUSE_LIMIT),
                (HOUSE_LIMIT, HOUSE_LIMIT),
                (HOUSE_LIMIT, HOUSE_LIMIT - 1),
                (past, HOUSE_LIMIT),
                (0, past),
                (1, past),
            ] {
                cases.push(Case::Departure {
                    population,
                    seats,
                    total,
                    house,
                });
            }
        }
    }
    cases
}

/// The last seat of the largest house, for which all states have the same quotient under a divisor
/// method or the quota method: as they are and with a voter more or less in the last state, and each
/// of these turned round.
fn largest_seats() -> Vec<Case> {
    let b = HOUSE_LIMIT - 2;
    // In each list the seats before the last add up to one less than the house: 1 and b, or under
    // Hill 1, 8, 288 and 9,800.
    let hill = [[1].repeat(7), vec![6, 6, 204, 204], [6_930].repeat(3)].concat();
    let methods = [
        (Method::Adams, vec![1, b]),
        (Method::Dean, vec![4 * (2 * b + 1) / 3, 2 * b * (b + 1)]),
        (Method::Hill, hill),
        (Method::Webster, vec![3, 2 * b + 1]),
        (Method::Jefferson, vec![2, b + 1]),
        (Method::Quota, vec![2, b + 1]),
    ];
    let mut cases = Vec::new();
    for (method, counts) in methods {
        for unit in [1, (SUM_LIMIT - 1) / counts.iter().sum::<u64>()] {
            for voters in [0, 1, 2] {
                let mut populations: Vec<u64> = counts.iter().map(|count| unit * count).collect();
                let last = populations.len() - 1;
                populations[last] = populations[last] + voters - 1;
                for _ in 0..2 {
                    cases.push(allot(method as u64, HOUSE_LIMIT, &populations));
                    populations.reverse();
                }
            }
        }
    }
    cases
}

/// The quota method at every house from 1 on, so that each seat shows by itself: equal states, equal
/// quotients of different states, shares that are whole at the same house, a large state among small
/// ones, and none of these.
fn every_house() -> Vec<Case> {
    let lists: [&[u64]; 9] = [
        &[7, 7, 7, 7, 7],
        &[1, 1, 5, 1],
        &[1, 2, 3, 4, 5, 6],
        &[60, 30, 20, 15, 12, 10],
        &[12, 4, 4, 3, 1, 6, 6, 12],
        &[13, 11, 7, 5, 3, 2],
        &[5_117, 4_400, 162, 161, 160],
        &[1, 1, 1, 1_000, 1, 1, 1],
        &[SUM_LIMIT / 2, SUM_LIMIT / 3, SUM_LIMIT / 7, 1, 1],
    ];
    let houses = |list| (1..=60).map(move |house| allot(Method::Quota as u64, house, list));
    lists.into_iter().flat_map(houses).collect()
}

/// The quota method for as many states as can be: a giant among states of one voter, states of two
/// sizes a voter apart, of sizes from one to twelve units, which have equal quotients all along, of
/// whole shares of the largest house, and of any size; the sum is at its limit or near it.
fn quota_limits() -> Vec<Case> {
    let limit = SUM_LIMIT / MOST_STATES;
    let places = 0..MOST_STATES;
    let pairs: Vec<u64> = places.clone().map(|i| limit - (i + 1) % 2).collect();
    // From 35 to 40 seats each, of so many voters; the first state has what is left to the house.
    let seat = SUM_LIMIT / HOUSE_LIMIT;
    let mut whole: Vec<u64> = places.map(|i| seat * (35 + i * 5 % 6)).collect();
    whole[0] += seat * HOUSE_LIMIT - whole.iter().sum::<u64>();
    let random = &mut Random::new(0, 0);
    let mut any: Vec<u64> = (0..MOST_STATES).map(|_| 1 + random.bits(22)).collect();
    any[STATES_LIMIT / 3] += SUM_LIMIT - any.iter().sum::<u64>();
    let mut cases = Vec::new();
    for populations in [giant(), pairs, units(), whole, any] {
        for house in [400, MOST_STATES, 7_777, HOUSE_LIMIT - 1, HOUSE_LIMIT] {
            cases.push(allot(Method::Quota as u64, house, &populations));
        }
    }
    cases
}

/// As many states as can be, of sizes from one to twelve units.
fn units() -> Vec<u64> {
    let unit = SUM_LIMIT / MOST_STATES / 12;
    (0..MOST_STATES).map(|i| unit * (i * 7 % 12 + 1)).collect()
}

/// Registers of the quota method whose method field is its word, or that word with one byte cut,
/// changed, put in, doubled or taken out.
fn quota_words() -> Vec<Case> {
    let words = at_every_byte(b"quota").into_iter();
    let register = |word: Vec<u8>| Case::Register {
        room: 100,
        place: 1,
        bytes: [b"register,", &word[..], b",3,2\nA,1\nB,2\ntotal,3\n"].concat(),
    };
    words.map(register).collect()
}

/// One seat more: what leximin and largest remainders are excepted for, a house below the states and
/// the largest, under every method; then every house from 1 on for two short lists, so that each
/// seat shows by itself.
fn one_seat_more() -> Vec<Case> {
    let mut cases = Vec::new();
    for (house, populations) in [
        (14, vec![69, 70, 150]),
        (3, vec![1, 3, 3]),
        (2, vec![3, 1, 3]),
        (HOUSE_LIMIT, vec![2, 3]),
    ] {
        for method in Method::ALL {
            cases.push(growth(method, house, &populations));
        }
    }
    for populations in SHORT_LISTS {
        for house in 1..=40 {
            for method in ONE_SEAT_MORE {
                cases.push(growth(method, house, populations));
            }
        }
    }
    cases
}

/// States that are equal and states that want a seat by the same quotient: in the first list under
/// every method but Dean, in the second under Dean.
const SHORT_LISTS: [&[u64]; 2] = [&[6, 3, 2, 6, 1, 3], &[28, 9, 5, 9, 5]];

/// A house and one seat more.
fn growth(method: Method, house: u64, populations: &[u64]) -> Case {
    Case::Growth {
        method: method as u64,
        house,
        populations: populations.to_vec(),
    }
}

/// The last seat of the largest house for as many states as can be: a giant among states of one
/// voter, equal states, and states of sizes from one to twelve units, which have equal quotients all
/// along.
fn one_seat_more_limits() -> Vec<Case> {
    let equal = vec![SUM_LIMIT / MOST_STATES; STATES_LIMIT];
    let mut cases = Vec::new();
    for populations in [giant(), equal, units()] {
        for method in ONE_SEAT_MORE {
            cases.push(growth(method, HOUSE_LIMIT - 1, &populations));
        }
    }
    cases
}

/// Two polls at one house, under every method: all counts doubled, of different states, of equal
/// ones and of such as want a seat by the same quotient; all doubled but one that has grown more,
/// where a seat moves that states want by the same quotient under Dean or Hill; one state grown by a
/// voter; and what quota, leximin and largest remainders are excepted for.
fn two_polls() -> Vec<Case> {
    let polls: [(u64, &[u64], &[u64]); 9] = [
        (14, &[69, 70, 150], &[138, 140, 300]),
        (3, &[1, 1], &[2, 2]),
        (7, &[3, 6, 3, 6], &[6, 12, 6, 12]),
        (14, &[5, 9, 28, 9, 5], &[10, 18, 56, 18, 15]),
        (20, &[1, 6, 1, 6], &[2, 12, 3, 12]),
        (5, &[10, 10, 10, 10], &[10, 11, 10, 10]),
        (3, &[1, 1, 4], &[2, 1, 7]),
        (7, &[1, 2, 7], &[3, 3, 10]),
        (3, &[2, 2, 5], &[3, 1, 3]),
    ];
    let mut cases = Vec::new();
    for (house, before, after) in polls {
        for method in Method::ALL {
            cases.push(Case::Polls {
                method: method as u64,
                house,
                before: before.to_vec(),
                after: after.to_vec(),
            });
        }
    }
    cases
}

/// Pairs of registers, the first typed plainly and the second with leading zeros and CR LF, that are
/// the same but for one thing: the method, the house, a name, a population, or which states there are
/// and in what order. Each is set beside each, itself included. Then some where one is refused.
fn copies() -> Vec<Case> {
    let two = said(20, &[("North", 7), ("South", 13)]);
    let methods = Method::ALL.map(|method| Content {
        method,
        ..two.clone()
    });
    let houses = [1, 2, 10, 100, HOUSE_LIMIT].map(|house| Content {
        house,
        ..two.clone()
    });
    let long = "~".repeat(32);
    let names = [
        "A", "a", "AA", "A A", "A  A", "0", "00", "007", "7", "total", &long,
    ];
    let names = names.map(|name| said(20, &[(name, 7), ("South", 13)]));
    let populations = [1, 10, 12, 21, 100, SUM_LIMIT - 13];
    let populations = populations.map(|p| said(20, &[("North", p), ("South", 13)]));
    let orders: [&[(&str, u64)]; 6] = [
        &[("A", 1), ("B", 2), ("C", 3)],
        &[("B", 2), ("A", 1), ("C", 3)],
        &[("B", 1), ("A", 2), ("C", 3)],
        &[("A", 1), ("B", 2), ("C", 3), ("total", 6)],
        &[("A", 1), ("B", 5)],
        &[("A", 6)],
    ];
    let orders = orders.map(|states| said(3, states));
    let groups: [&[Content]; 5] = [&methods, &houses, &names, &populations, &orders];
    let mut cases = Vec::new();
    for group in groups {
        for first in group {
            cases.extend(group.iter().map(|second| pair(first, second)));
        }
    }
    let past = said(HOUSE_LIMIT + 1, &[("North", 7), ("South", 13)]);
    for (first, second) in [(&two, &past), (&past, &two), (&past, &past)] {
        cases.push(pair(first, second));
    }
    cases
}

/// A register of Hill's.
fn said(house: u64, states: &[(&str, u64)]) -> Content {
    Content {
        method: Method::Hill,
        house,
        names: states.iter().map(|(name, _)| name.to_string()).collect(),
        populations: states.iter().map(|(_, population)| *population).collect(),
    }
}

/// Two registers, the second typed with as many bytes as it can have.
fn pair(first: &Content, second: &Content) -> Case {
    Case::Copies {
        first: first.plain().bytes(),
        second: second.wide().bytes(),
    }
}

/// A register of as many states as can be, of the longest names and the largest sum, beside itself
/// and beside one that differs in its last lines only.
fn longest_copies() -> Vec<Case> {
    let mut populations = vec![SUM_LIMIT / MOST_STATES; STATES_LIMIT];
    populations[0] += SUM_LIMIT % MOST_STATES;
    let longest = Content {
        method: Method::Remainders,
        house: HOUSE_LIMIT,
        names: damage::names(damage::LONG_NAMES, STATES_LIMIT),
        populations,
    };
    let last = STATES_LIMIT - 1;
    let mut name = longest.clone();
    name.names[last].replace_range(0..1, "}");
    let mut population = longest.clone();
    population.populations[last] -= 1;
    let mut order = longest.clone();
    order.names.swap(last - 1, last);
    let mut fewer = longest.clone();
    fewer.names.pop();
    fewer.populations.pop();
    let others = [&longest, &name, &population, &order, &fewer];
    others.map(|other| pair(&longest, other)).to_vec()
}

/// One state has all voters but one for each other, and gives up a seat at every step: the longest
/// walk we know, of as many steps as there are other states.
fn longest_walk() -> Vec<Case> {
    vec![
        allot(Method::Leximin as u64, MOST_STATES, &giant()),
        Case::Walk {
            house: MOST_STATES,
            populations: giant(),
        },
    ]
}

/// The placings on the way from an opening to its house.
fn placings(house: u64, populations: &[u64]) -> Vec<Placing> {
    way(populations, house).expect("a sound problem").collect()
}

/// A placing and the numbers to move it by.
fn moving(placing: &Placing, asked: &[u64]) -> Case {
    Case::Moves {
        placing: Box::new(*placing),
        asked: asked.to_vec(),
    }
}

/// Moves from the start, from halfway and at the house: on the longest way that we know, on one where
/// all states are equal, on short ones down and up, and where the start is the house already.
fn moves() -> Vec<Case> {
    let equal = vec![SUM_LIMIT / MOST_STATES; STATES_LIMIT];
    let problems = [
        (MOST_STATES, giant()),
        (MOST_STATES + MOST_STATES / 4, equal),
        (20, vec![26, 27, 28, 29, 91]),
        (4, vec![1, 1, 1, 97]),
        (26, vec![100; 20]),
        (4, vec![6, 6, 12]),
    ];
    let mut cases = Vec::new();
    for (house, populations) in problems {
        let placings = placings(house, &populations);
        let gap = placings.len() - 1;
        for steps in [0, gap / 2, gap] {
            let lists = lists((gap - steps) as u64);
            cases.extend(lists.iter().map(|asked| moving(&placings[steps], asked)));
        }
    }
    cases
}

/// Numbers for a placing with so many seats left to its house: none, 0, all that are left at once, in
/// halves and but for one, more than are left, and the largest, alone, in parts, and twice.
fn lists(left: u64) -> [Vec<u64>; 12] {
    let (half, but_one) = (left / 2, left.saturating_sub(1));
    [
        vec![],
        vec![0, 0],
        vec![left],
        vec![half, left - half],
        vec![left - half, half, 0],
        vec![1, but_one, 1],
        vec![but_one, 1, 1],
        vec![left + 1],
        vec![u64::MAX],
        vec![1, u64::MAX - 1, 0, 1],
        vec![1 << 63, 1 << 63],
        vec![u64::MAX, u64::MAX],
    ]
}

/// Foreign placings, moved by 0 and by more: with one thing changed at the start, halfway and at the
/// house, one that has its house for a total and not the seats, one at its house with the seats of
/// equal states changed about, and some that hold one number everywhere.
fn foreign_moves() -> Vec<Case> {
    let edits: [fn(&mut Placing); 7] = [
        |placing| placing.seats[placing.states as usize] = 1,
        |placing| placing.populations[placing.states as usize] = 1,
        |placing| placing.seats[STATES_LIMIT - 1] = u64::MAX,
        |placing| placing.populations[STATES_LIMIT - 1] = u64::MAX,
        |placing| placing.total += 1,
        |placing| placing.steps += 1,
        |placing| {
            placing.seats[0] += 1;
            placing.seats[placing.states as usize - 1] -= 1;
        },
    ];
    let five = (7, vec![5; 5]);
    let most = (MOST_STATES - 1, giant_among(STATES_LIMIT - 1));
    let mut forged = Vec::new();
    for (house, populations) in [five, most] {
        let placings = placings(house, &populations);
        let gap = placings.len() - 1;
        for steps in [0, gap / 2, gap] {
            for edit in edits {
                let mut placing = placings[steps];
                edit(&mut placing);
                forged.push(placing);
            }
        }
        let mut placing = placings[0];
        placing.total = house;
        forged.push(placing);
    }
    // At its house the first two of the five have 2 seats and the others 1.
    let mut placing = placings(7, &[5; 5])[3];
    placing.seats.swap(1, 2);
    forged.push(placing);
    for number in [0, 1, MOST_STATES, u64::MAX] {
        forged.push(Placing {
            states: number,
            house: number,
            total: number,
            steps: number,
            populations: [number; STATES_LIMIT],
            seats: [number; STATES_LIMIT],
        });
    }
    let asked = [0, 1, u64::MAX, u64::MAX];
    forged
        .iter()
        .map(|placing| moving(placing, &asked))
        .collect()
}

/// Registers of as many states as can be and more, each line as long as it can be: accepted, with
/// a fault in one of the last lines, and going on after the closing line up to the most bytes and
/// past them.
fn longest_registers(random: &mut Random) -> Vec<Case> {
    let mut cases = Vec::new();
    for method in ["leximin", "hill", "webster", "remainders", "quota"] {
        let bytes = wide(method, STATES_LIMIT).bytes();
        let length = reference::listing(&bytes).map_or(100, |listing| listing.len());
        for (room, place) in [(length - 1, STATES_LIMIT), (length, STATES_LIMIT - 1)] {
            let bytes = bytes.clone();
            cases.push(Case::Register { room, place, bytes });
        }
    }

    let mut refused = Vec::new();
    let accepted = wide("remainders", STATES_LIMIT);
    let closing = STATES_LIMIT + 1;
    for (line, field, text) in [
        (closing, 1, "4294967294"),
        (closing, 0, "Total"),
        (closing - 1, 1, "0000000000"),
        (closing - 1, 1, "4294967295"),
        (closing - 1, 0, &damage::names(damage::LONG_NAMES, 1)[0]),
        (closing - 2, 0, " "),
    ] {
        let mut faulty = accepted.clone();
        faulty.lines[line][field] = text.into();
        refused.push(faulty.bytes());
    }
    // 1,455 lines of states fill the most bytes.
    for n in [STATES_LIMIT + 1, 1_000, 1_455, 1_456] {
        let mut draft = wide("remainders", n);
        refused.push(draft.bytes());
        draft.lines[0][3] = format!("{STATES_LIMIT:010}").into();
        refused.push(draft.bytes());
    }
    let bytes = accepted.bytes();
    for length in [
        bytes.len() - 1,
        bytes.len() + 1,
        45_000,
        BYTES_LIMIT,
        BYTES_LIMIT + 1,
    ] {
        // The register again after its closing line.
        refused.push(bytes.iter().copied().cycle().take(length).collect());
    }
    cases.extend(
        refused
            .into_iter()
            .map(|bytes| seeded::around(random, bytes)),
    );
    cases
}

/// A sound register, but for the number of its states, in which each line is as long as it can be.
fn wide(method: &str, n: usize) -> Draft {
    let names = damage::names(damage::LONG_NAMES, n);
    let mut populations: Vec<u64> = (1..=n as u64).collect();
    populations[n / 3] += SUM_LIMIT - populations.iter().sum::<u64>();
    let mut draft = Draft::plain(method, HOUSE_LIMIT, &names, &populations);
    draft.widen();
    draft
}

/// Registers whose names have one fingerprint in the library, which keeps 32 bits of each: all
/// different, and with a name used again.
fn alike(random: &mut Random) -> Vec<Case> {
    let names = alike_names();
    let mut cases = Vec::new();
    for n in [2, 3, 50, STATES_LIMIT] {
        for used in [None, Some(0), Some(n / 2), Some(n - 2)] {
            let mut names = names[..n].to_vec();
            if let Some(used) = used {
                names[n - 1] = names[used].clone();
            }
            let bytes = Draft::plain("webster", 300, &names, &vec![7; n]).bytes();
            cases.push(seeded::around(random, bytes));
        }
    }
    cases
}

/// As many names of 32 bytes as there can be states, all with one fingerprint: adding these eight
/// numbers to eight bytes in a row leaves it as it was, wherever they stand.
fn alike_names() -> Vec<String> {
    const NUMBERS: [i32; 8] = [-11, 2, -6, 5, 9, -6, 12, 3];
    let places = (0..25).flat_map(|a| (a..25).flat_map(move |b| (b..25).map(move |c| [a, b, c])));
    let name = |places: [usize; 3]| {
        let mut bytes = [80; 32];
        for at in places {
            for (byte, number) in bytes[at..].iter_mut().zip(NUMBERS) {
                *byte += number;
            }
        }
        bytes.iter().map(|byte| *byte as u8 as char).collect()
    };
    places.map(name).take(STATES_LIMIT).collect()
}

#[cfg(test)]
mod tests {
    use super::*;
    use std::collections::HashSet;

    #[test]
    fn the_longest_register_is_accepted() {
        let bytes = wide("remainders", STATES_LIMIT).bytes();
        let head = "register,remainders,0000030000,0000000800\r\n".len();
        let state = 32 + 1 + 10 + 2;
        let closing = "total,4294967295\r\n".len();
        assert_eq!(bytes.len(), head + STATES_LIMIT * state + closing);
        assert_eq!(bytes.len(), 36_061);
        assert_eq!(reference::read(&bytes).unwrap().names.len(), STATES_LIMIT);
        assert_eq!(wide("remainders", 1_455).bytes().len(), BYTES_LIMIT);
    }

    #[test]
    fn of_the_pairs_to_be_cleaned_each_says_the_same_as_itself_alone() {
        let mut said = [0, 0];
        for case in copies().into_iter().chain(longest_copies()) {
            let Case::Copies { first, second } = case else {
                panic!("not a pair: {case:?}");
            };
            if let (Ok(first), Ok(second)) = (reference::read(&first), reference::read(&second)) {
                said[(first == second) as usize] += 1;
            }
        }
        let groups = [8, 5, 11, 6, 6];
        let same: usize = groups.iter().sum();
        let pairs: usize = groups.iter().map(|n| n * n).sum();
        assert_eq!(said, [pairs - same + 4, same + 1]);
    }

    /// The placings of some moves.
    fn moved(cases: Vec<Case>) -> impl Iterator<Item = (Placing, Vec<u64>)> {
        cases.into_iter().map(|case| match case {
            Case::Moves { placing, asked } => (*placing, asked),
            _ => panic!("not a move: {case:?}"),
        })
    }

    #[test]
    fn placings_to_be_moved_are_foreign_or_genuine_as_they_should_be() {
        let mut longest = 0;
        for (mut placing, asked) in moved(moves()) {
            assert!(placing.is_genuine());
            for seats in asked {
                longest = longest.max(placing.advance(seats).unwrap());
            }
        }
        assert_eq!(longest, MOST_STATES - 1);
        let mut at_house = 0;
        for (placing, asked) in moved(foreign_moves()) {
            assert!(!placing.is_genuine() && asked[0] == 0);
            at_house += (placing.total == placing.house) as u64;
        }
        assert!(at_house > 10, "{at_house}");
    }

    #[test]
    fn of_equal_quotients_the_first_state_has_the_last_seat() {
        let allotted = |case: &Case| {
            let Case::Allot {
                method,
                house,
                populations,
                ..
            } = case
            else {
                panic!("not an allotment: {case:?}");
            };
            let mut seats = vec![0; populations.len()];
            let method = Method::ALL[*method as usize];
            reference::allot(method, *house, populations, &mut seats).unwrap();
            seats
        };
        // In groups of six: the last state with a voter less, as many, a voter more, and each of
        // these in both orders. The first has the seat where all are equal, whichever it is, and
        // the others keep theirs.
        for group in largest_seats().chunks(6) {
            let one_less = |mut seats: Vec<u64>| {
                seats[0] -= 1;
                seats
            };
            let rising = one_less(allotted(&group[2]));
            let mut falling = one_less(allotted(&group[3]));
            falling.reverse();
            assert_eq!(rising, falling);
            assert_eq!(rising.iter().sum::<u64>(), HOUSE_LIMIT - 1);
        }
    }

    /// Whether the seats hang on the order of the register.
    fn has_ties(method: Method, house: u64, populations: &[u64]) -> bool {
        let mut seats = vec![0; populations.len()];
        reference::allot(method, house, populations, &mut seats).unwrap();
        let turned: Vec<u64> = populations.iter().rev().copied().collect();
        let mut others = seats.clone();
        reference::allot(method, house, &turned, &mut others).unwrap();
        others.reverse();
        seats != others
    }

    #[test]
    fn the_short_lists_have_ties_at_houses_one_after_another() {
        // Under Hill the states of 6 and of 1 want the 29th to the 31st seat by the same quotient,
        // under Dean all states of the second list the 14th to the 18th.
        let [first, second] = SHORT_LISTS;
        for method in ONE_SEAT_MORE {
            let list = if method == Method::Dean {
                second
            } else {
                first
            };
            let tied: Vec<u64> = (8..=40).filter(|&h| has_ties(method, h, list)).collect();
            let in_a_row = |pair: &[u64]| pair[0] + 1 == pair[1];
            assert!(tied.windows(2).any(in_a_row), "{method:?} {tied:?}");
        }
        assert!((14..=17).all(|house| has_ties(Method::Dean, house, second)));
        assert!((29..=30).all(|house| has_ties(Method::Hill, house, first)));
    }

    #[test]
    fn the_largest_quota_inputs_are_sound_and_one_has_whole_shares() {
        let mut whole = 0;
        for case in quota_limits() {
            let Case::Allot {
                house, populations, ..
            } = case
            else {
                panic!("not an allotment: {case:?}");
            };
            assert_eq!(reference::check_problem(&populations, house), Ok(()));
            let sum: u64 = populations.iter().sum();
            whole += populations.iter().all(|p| p * house % sum == 0) as u64;
        }
        assert_eq!(whole, 1);
    }

    #[test]
    fn names_with_one_fingerprint_are_different_names() {
        let names = alike_names();
        assert_eq!(names.len(), STATES_LIMIT);
        let different: HashSet<&String> = names.iter().collect();
        assert_eq!(different.len(), STATES_LIMIT);
        let is_plain = |byte| (33..=126).contains(&byte) && byte != b',';
        assert!(names
            .iter()
            .all(|name| name.len() == 32 && name.bytes().all(is_plain)));
        // As the library works it out: times the FNV prime and the byte added, cut to 32 bits.
        let fingerprint = |name: &String| {
            let next = |print: u32, byte| print.wrapping_mul(16_777_619).wrapping_add(byte as u32);
            name.bytes().fold(0, next)
        };
        let fingerprints: HashSet<u32> = names.iter().map(fingerprint).collect();
        assert_eq!(fingerprints.len(), 1);
    }
}
