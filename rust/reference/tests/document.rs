//! The examples and traps of document 01 and its change requests, and the refusals that they word,
//! one test for each.

use reference::Method::*;
use reference::*;

fn seats(method: Method, house: u64, populations: &[u64]) -> Vec<u64> {
    let mut seats = vec![0; populations.len()];
    allot(method, house, populations, &mut seats).unwrap();
    seats
}

fn refused(register: &str) -> (u64, u64) {
    let refusal = read(register.as_bytes()).expect_err(register);
    (refusal.number, refusal.line)
}

/// A register whose states all have 1 voter.
fn ones(method: &str, house: u64, count: usize) -> String {
    let states: String = (0..count).map(|i| format!("s{i},1\n")).collect();
    format!("register,{method},{house},{count}\n{states}total,{count}\n")
}

// ---- Allotments

#[test]
fn leximin() {
    assert_eq!(seats(Leximin, 20, &[26, 27, 28, 29, 91]), [3, 3, 3, 3, 8]);
    assert_eq!(seats(Leximin, 14, &[69, 70, 150]), [3, 3, 8]);
    assert_eq!(seats(Leximin, 15, &[69, 70, 150]), [4, 4, 7]);
    assert_eq!(seats(Leximin, 3, &[100, 200]), [1, 2]);
    assert_eq!(seats(Leximin, 4, &[100, 200]), [1, 3]);
    assert_eq!(seats(Leximin, 10, &[4, 13, 13]), [2, 4, 4]);
    assert_eq!(
        seats(Leximin, 10, &[10, 5, 5, 5, 5, 5, 5]),
        [3, 2, 1, 1, 1, 1, 1]
    );
    assert_eq!(seats(Leximin, 2, &[1, 1000]), [1, 1]);
    assert_eq!(seats(Leximin, 3, &[5, 5, 5]), [1, 1, 1]);
    assert_eq!(seats(Leximin, 5, &[7]), [5]);
    assert_eq!(seats(Leximin, 3, &[3, 3]), [2, 1]);
}

#[test]
fn moves_that_raise_nothing_go_in_register_order() {
    assert_eq!(seats(Leximin, 6, &[238, 140, 252]), [2, 2, 2]);
    assert_eq!(seats(Leximin, 5, &[252, 140, 133]), [3, 1, 1]);
    assert_eq!(seats(Leximin, 8, &[3, 5, 10]), [2, 2, 4]);
}

#[test]
fn of_equal_withdrawals_the_later_state_gives_up() {
    assert_eq!(open(&[1, 1, 2], 6).unwrap().seats[..3], [2, 2, 3]);
    assert_eq!(seats(Leximin, 6, &[1, 1, 2]), [2, 1, 3]);
}

#[test]
fn other_methods() {
    assert_eq!(seats(Webster, 2, &[1, 99]), [0, 2]);
    assert_eq!(seats(Adams, 2, &[1, 99]), [1, 1]);
    assert_eq!(seats(Remainders, 2, &[1, 3]), [0, 2]);
    assert_eq!(seats(Quota, 2, &[1, 99]), [0, 2]);
    assert_eq!(seats(Quota, 20, &[26, 27, 28, 29, 91]), [2, 2, 3, 3, 10]);
}

#[test]
fn quota_stays_within_the_quota() {
    // The shares are 51.17, 44 and 1.62, 1.61, 1.60 seats; without the quota the second state
    // would have 45, and the third 1.
    let populations = [5_117, 4_400, 162, 161, 160];
    assert_eq!(seats(Quota, 100, &populations), [52, 44, 2, 1, 1]);
    assert_eq!(seats(Jefferson, 100, &populations), [52, 45, 1, 1, 1]);
    let sum: u64 = populations.iter().sum();
    for house in 1..=1_000 {
        for (p, a) in populations.iter().zip(seats(Quota, house, &populations)) {
            assert!(p * house / sum <= a && a <= (p * house).div_ceil(sum));
        }
    }
}

#[test]
fn quota_gives_a_seat_more_with_each_house() {
    let populations = [1, 1, 5, 1, 3, 6, 6];
    let mut before = vec![0; populations.len()];
    for house in 1..=50 {
        let after = seats(Quota, house, &populations);
        let gained = before.iter().zip(&after).filter(|(a, b)| a != b);
        let gained: Vec<(&u64, &u64)> = gained.collect();
        assert!(matches!(gained[..], [(a, b)] if a + 1 == *b), "{house}");
        before = after;
    }
}

#[test]
fn steps_are_the_gap_under_leximin_and_0_otherwise() {
    let mut seats = [0; 5];
    let populations = [26, 27, 28, 29, 91];
    let start = open(&populations, 20).unwrap();
    let gap = start.total.abs_diff(20);
    assert_eq!(allot(Leximin, 20, &populations, &mut seats), Ok(gap));
    assert_ne!(gap, 0);
    for method in &Method::ALL[1..] {
        assert_eq!(allot(*method, 20, &populations, &mut seats), Ok(0));
    }
}

#[test]
fn every_method_allots_the_largest_house_to_the_most_states() {
    // Equal shares of 37 seats and a half: the first half of the states has 38.
    let states = STATES_LIMIT as u64;
    let populations = [SUM_LIMIT / states; STATES_LIMIT];
    let expected: Vec<u64> = (0..states).map(|i| 37 + (i < 400) as u64).collect();
    for method in Method::ALL {
        assert_eq!(seats(method, HOUSE_LIMIT, &populations), expected);
    }
}

#[test]
fn allotting_is_refused_in_the_order_of_the_document() {
    let refused = |method, house, populations: &[u64], room| {
        let mut seats = vec![77; room];
        let refusal = allot(method, house, populations, &mut seats).unwrap_err();
        assert!(seats.iter().all(|&a| a == 77), "the lent list is untouched");
        assert_eq!(refusal.line, 0);
        refusal.number
    };
    assert_eq!(refused(Leximin, 0, &[], 1), 10);
    assert_eq!(refused(Leximin, 0, &[0; STATES_LIMIT + 1], 1), 10);
    assert_eq!(refused(Leximin, 0, &[0, u64::MAX], 1), 11);
    assert_eq!(refused(Leximin, HOUSE_LIMIT + 1, &[0, u64::MAX], 1), 11);
    assert_eq!(refused(Leximin, 1, &[u64::MAX, u64::MAX, 0], 1), 12);
    assert_eq!(refused(Leximin, 1, &[u64::MAX, u64::MAX], 1), 13);
    assert_eq!(refused(Leximin, 1, &[SUM_LIMIT, 1], 1), 13);
    assert_eq!(refused(Leximin, 1, &[SUM_LIMIT - 1, 1], 1), 14);
    assert_eq!(refused(Leximin, 1, &[SUM_LIMIT - 1, 1], 3), 14);
    for method in [Leximin, Adams, Dean, Hill] {
        assert_eq!(refused(method, 2, &[5, 5, 5], 3), 15);
    }
    for method in [Webster, Jefferson, Remainders, Quota] {
        assert_eq!(seats(method, 2, &[5, 5, 5]), [1, 1, 0]);
    }
}

// ---- The placing

/// A placing after a move, and how many were moved.
fn moved(mut placing: Placing, seats: u64) -> (u64, Placing) {
    let moved = placing.advance(seats).unwrap();
    (moved, placing)
}

#[test]
fn moving_by_one_reaches_the_house_and_stays_there() {
    let populations = [26, 27, 28, 29, 91];
    let opened = open(&populations, 20).unwrap();
    let gap = opened.total.abs_diff(20);
    let on_the_way: Vec<Placing> = way(&populations, 20).unwrap().collect();
    assert_eq!(on_the_way.len() as u64, gap + 1);
    let mut placing = opened;
    for k in 1..=gap + 3 {
        assert_eq!(placing.advance(1), Ok((k <= gap) as u64));
        assert_eq!(placing.steps, k.min(gap));
        assert_eq!(placing.total.abs_diff(opened.total), k.min(gap));
        assert_eq!(placing, on_the_way[k.min(gap) as usize]);
    }
    assert_eq!(placing.seats[..5], [3, 3, 3, 3, 8]);
}

/// Problems whose way to the house goes up, down, or nowhere, most with equal departures on it.
fn short_ways() -> [(Vec<u64>, u64); 7] {
    [
        (vec![1, 1, 1, 97], 4),
        (vec![5; 5], 7),
        (vec![7; 6], 8),
        (vec![3, 3], 3),
        (vec![1, 1, 2, 9], 4),
        (vec![4, 13, 13], 10),
        (vec![6, 6, 12], 4),
    ]
}

#[test]
fn wherever_a_move_halts_the_search_finds_the_same_seats() {
    let mut halts = 0;
    for (populations, house) in short_ways() {
        let opened = open(&populations, house).unwrap();
        let gap = opened.total.abs_diff(house);
        for seats in (0..=gap + 1).chain([u64::MAX]) {
            let (_, placing) = moved(opened, seats);
            let least = search(&populations, house, placing.total).unwrap();
            assert_eq!(placing.seats[..populations.len()], least);
            assert_eq!(placing.populations, opened.populations);
            assert_eq!(placing.house, house);
            halts += 1;
        }
    }
    assert!(halts > 30, "{halts}");
}

#[test]
fn two_moves_are_one_by_their_sum() {
    for (populations, house) in short_ways() {
        let opened = open(&populations, house).unwrap();
        let gap = opened.total.abs_diff(house);
        let numbers: Vec<u64> = (0..=gap + 2).chain([u64::MAX - 1, u64::MAX]).collect();
        for start in 0..=gap {
            let (_, placing) = moved(opened, start);
            for &j in &numbers {
                let (first, halt) = moved(placing, j);
                let fitting = numbers.iter().filter(|&k| j.checked_add(*k).is_some());
                for &k in fitting {
                    let (second, end) = moved(halt, k);
                    assert_eq!((first + second, end), moved(placing, j + k), "{j} {k}");
                }
            }
        }
    }
}

#[test]
fn a_list_of_moves_makes_the_smaller_of_its_sum_and_the_gap() {
    let lists: [&[u64]; 10] = [
        &[],
        &[0],
        &[0, 0, 0],
        &[1],
        &[1, 1],
        &[1, 0, 2, 0],
        &[2, 1, 1],
        &[u64::MAX],
        &[u64::MAX, u64::MAX],
        &[1, u64::MAX, 1, 1 << 63, 1 << 63],
    ];
    for (populations, house) in short_ways() {
        let opened = open(&populations, house).unwrap();
        let gap = opened.total.abs_diff(house);
        let on_the_way: Vec<Placing> = way(&populations, house).unwrap().collect();
        for list in lists {
            let mut placing = opened;
            let (mut sum, mut in_all) = (0, 0);
            for &seats in list {
                in_all += placing.advance(seats).expect("no move of these is refused");
                sum += seats as u128;
                let steps = sum.min(gap as u128) as u64;
                assert_eq!((placing.steps, in_all), (steps, steps), "{list:?}");
                assert_eq!(placing, on_the_way[steps as usize], "{list:?}");
            }
        }
    }
}

#[test]
fn a_walk_can_have_as_many_steps_as_there_are_other_states() {
    // The first state has all voters but one for each other, and gives up a seat at every step.
    let states = STATES_LIMIT as u64;
    let mut populations = [1; STATES_LIMIT];
    populations[0] = SUM_LIMIT - (states - 1);
    let on_the_way: Vec<Placing> = way(&populations, states).unwrap().collect();
    assert_eq!(on_the_way.len(), STATES_LIMIT);
    for (k, placing) in (0..).zip(&on_the_way) {
        assert_eq!((placing.seats[0], placing.steps), (states - k, k));
        assert!(placing.seats[1..].iter().all(|&a| a == 1));
    }
    let (start, end) = (on_the_way[0], on_the_way[STATES_LIMIT - 1]);
    let before = on_the_way[STATES_LIMIT - 2];
    assert_eq!(moved(start, u64::MAX), (states - 1, end));
    assert_eq!(moved(start, states - 2), (states - 2, before));
    assert_eq!(moved(before, 1), (1, end));
    assert_eq!(moved(before, 2), (1, end));
    assert_eq!(moved(end, 1), (0, end));
}

#[test]
fn opening_is_refused_in_the_order_of_the_document() {
    let refused = |populations: &[u64], house| open(populations, house).unwrap_err().number;
    assert_eq!(refused(&[], 0), 10);
    assert_eq!(refused(&[0; STATES_LIMIT + 1], 0), 10);
    assert_eq!(refused(&[0], HOUSE_LIMIT + 1), 11);
    assert_eq!(refused(&[u64::MAX, 0], 1), 12);
    assert_eq!(refused(&[u64::MAX, 1], 1), 13);
    assert_eq!(refused(&[5, 5, 5], 2), 15);
}

#[test]
fn forged_placings_are_refused_21_and_stay_as_they_were() {
    let equal = open(&[3, 3], 3).unwrap();
    let (one, at_house) = moved(equal, 1);
    assert_eq!((one, at_house.total, at_house.steps), (1, 3, 1));
    type Edit = fn(&mut Placing);
    let edits: [(&str, Edit); 12] = [
        ("seats of equal states swapped", |p| p.seats.swap(0, 1)),
        ("a wrong total", |p| p.total += 1),
        ("no steps", |p| p.steps = 0),
        ("overstated steps", |p| p.steps = 2),
        ("steps past all bounds", |p| p.steps = u64::MAX),
        ("a seat past its states", |p| p.seats[2] = 1),
        ("a population past its states", |p| {
            p.populations[STATES_LIMIT - 1] = 1
        }),
        ("no states", |p| p.states = 0),
        ("more states than the limit", |p| {
            p.states = STATES_LIMIT as u64 + 1
        }),
        ("more states than a list can hold", |p| p.states = u64::MAX),
        ("another house", |p| p.house = 4),
        ("nothing at all", |p| {
            *p = Placing {
                states: 0,
                house: 0,
                total: 0,
                steps: 0,
                populations: [0; STATES_LIMIT],
                seats: [0; STATES_LIMIT],
            }
        }),
    ];
    for (what, edit) in edits {
        let mut forged = at_house;
        edit(&mut forged);
        let before = forged;
        for seats in [0, 1, u64::MAX] {
            let outcome = forged.advance(seats);
            assert_eq!(outcome.map_err(|r| r.number), Err(21), "{what}");
            assert_eq!(forged, before, "{what}");
        }
    }
    assert_eq!(moved(at_house, 0), (0, at_house));
}

// ---- Departures

/// A sound state's departure as it is shown.
fn shown(p: u64, a: u64, total: u64, house: u64) -> i64 {
    let (shown, _) = departure(p, a, total, house).unwrap().unwrap();
    shown
}

#[test]
fn marks_come_from_the_exact_size() {
    // A population and the total, with one seat of two: what is shown and marked.
    for (p, total, text, mark) in [
        (11, 20, "10.000", Mark::In),
        (1_101, 2_000, "10.100", Mark::High),
        (115_004, 200_000, "15.004", Mark::Over),
        (9, 20, "-10.000", Mark::In),
        (115, 200, "15.000", Mark::High),
        // Beyond a limit by less than what is shown.
        (1_100_001, 2_000_000, "10.000", Mark::High),
        (899_999, 2_000_000, "-10.000", Mark::High),
        (1_150_001, 2_000_000, "15.000", Mark::Over),
        (849_999, 2_000_000, "-15.000", Mark::Over),
    ] {
        let (shown, found) = departure(p, 1, total, 2).unwrap().unwrap();
        assert_eq!((&shown_text(Some(shown))[..], found), (text, mark));
    }
}

#[test]
fn departures_a_thousandth_apart_are_shown_apart() {
    assert_eq!(departure(11, 1, 20, 2), Ok(Some((10_000, Mark::In))));
    assert_eq!(
        departure(110_001, 1, 200_000, 2),
        Ok(Some((10_001, Mark::High)))
    );
}

#[test]
fn halves_are_rounded_away_from_zero() {
    // p of 400,000 with one seat of two departs by (p - 200,000) / 2 thousandths.
    assert_eq!(shown(200_001, 1, 400_000, 2), 1);
    assert_eq!(shown(199_999, 1, 400_000, 2), -1);
    assert_eq!(shown(200_002, 1, 400_000, 2), 1);
    assert_eq!(shown(200_003, 1, 400_000, 2), 2);
    assert_eq!(shown(199_997, 1, 400_000, 2), -2);
    // At the limits: a half, 2,999,899,998 and a half, and -99,998 and a half.
    assert_eq!(shown(133_334, 1, 4_000_000_000, HOUSE_LIMIT), 1);
    let large = shown(3_999_999_998, 1, 4_000_000_000, HOUSE_LIMIT);
    assert_eq!(large, 2_999_899_999);
    let small = shown(60_000, HOUSE_LIMIT, 4_000_000_000, HOUSE_LIMIT);
    assert_eq!(small, -99_999);
}

#[test]
fn less_than_a_half_is_shown_as_zero_on_either_side() {
    assert_eq!(shown(250_001, 1, 500_000, 2), 0);
    assert_eq!(shown(249_999, 1, 500_000, 2), 0);
    assert_eq!(shown(133_333, 1, 4_000_000_000, HOUSE_LIMIT), 0);
}

#[test]
fn the_largest_departures() {
    let largest = shown(SUM_LIMIT, 1, SUM_LIMIT, HOUSE_LIMIT);
    assert_eq!(largest, 2_999_900_000);
    assert_eq!(largest, SHOWN_SCALE * (HOUSE_LIMIT as i64 - 1));
    let least = shown(1, HOUSE_LIMIT, SUM_LIMIT, HOUSE_LIMIT);
    assert_eq!(least, -SHOWN_SCALE);
}

#[test]
fn a_departure_is_written_with_three_digits_after_the_point() {
    for (shown, text) in [
        (0, "0.000"),
        (1, "0.001"),
        (-1, "-0.001"),
        (-10, "-0.010"),
        (-999, "-0.999"),
        (1_000, "1.000"),
        (-1_100, "-1.100"),
        (-SHOWN_SCALE, "-100.000"),
        (2_999_899_999, "2999899.999"),
        (2_999_900_000, "2999900.000"),
    ] {
        assert_eq!(shown_text(Some(shown)), text);
    }
    assert_eq!(shown_text(None), "none");
}

#[test]
fn a_state_without_seats_shows_none() {
    assert_eq!(departure(5, 0, 10, 3), Ok(None));
    assert_eq!(
        listing(b"register,webster,2,2\nA,1\nB,99\ntotal,100\n").unwrap(),
        b"allotment,webster,2,2\nA,1,0,none,none\nB,99,2,-1.000,in\ntotal,100,2\n"
    );
}

#[test]
fn departure_is_refused_outside_the_limits() {
    let refused = |p, a, total, house| departure(p, a, total, house).unwrap_err().number;
    for (p, a, total, house) in [
        (1, 0, 0, 1),
        (0, 0, 1, 1),
        (2, 1, 1, 1),
        (1, 2, 1, 1),
        (1, 1, 1, 0),
        (1, 1, 1, HOUSE_LIMIT + 1),
        (1, 1, SUM_LIMIT + 1, 1),
        (u64::MAX, u64::MAX, u64::MAX, u64::MAX),
    ] {
        assert_eq!(refused(p, a, total, house), 30);
    }
}

// ---- Reading

#[test]
fn a_register_is_read() {
    let register = read(b"register,hill,0020,2\r\ntotal,007\nB b,8\r\ntotal,15\n").unwrap();
    assert_eq!(register.method, Hill);
    assert_eq!((register.house, register.total), (20, 15));
    assert_eq!(register.names, [&b"total"[..], b"B b"]);
    assert_eq!(register.populations, [7, 8]);
}

#[test]
fn every_method_has_its_word() {
    let words = [
        "leximin",
        "adams",
        "dean",
        "hill",
        "webster",
        "jefferson",
        "remainders",
        "quota",
    ];
    assert_eq!(Method::ALL.map(Method::name), words);
    for (method, word) in Method::ALL.into_iter().zip(words) {
        let register = ones(word, 3, 2);
        assert_eq!(read(register.as_bytes()).unwrap().method, method);
        let capital = word[..1].to_uppercase() + &word[1..];
        for near in [&word[1..], &word[..word.len() - 1], &capital] {
            assert_eq!(refused(&ones(near, 3, 2)), (4, 1), "{near}");
        }
        assert_eq!(refused(&ones(&format!("{word}s"), 3, 2)), (4, 1));
    }
}

#[test]
fn limits_of_the_document() {
    assert_eq!((HOUSE_LIMIT, STATES_LIMIT), (30_000, 800));
    let register = ones("adams", HOUSE_LIMIT, STATES_LIMIT);
    let read_back = read(register.as_bytes()).unwrap();
    assert_eq!((read_back.house, read_back.names.len()), (30_000, 800));
    assert_eq!(
        refused(&ones("adams", HOUSE_LIMIT + 1, STATES_LIMIT)),
        (3, 1)
    );
    assert_eq!(
        refused(&ones("adams", HOUSE_LIMIT, STATES_LIMIT + 1)),
        (3, 1)
    );
    assert_eq!(refused(""), (2, 1));
    assert_eq!(refused("register,hill,3,2\nA,1\nB,0\ntotal,9\n"), (3, 3));
    assert_eq!(refused(&"x".repeat(BYTES_LIMIT)), (2, 1));
    assert_eq!(refused(&"x".repeat(BYTES_LIMIT + 1)), (1, 0));
    let house_below_states = ones("leximin", 2, 3);
    assert!(read(house_below_states.as_bytes()).is_ok());
    let refusal = listing(house_below_states.as_bytes()).unwrap_err();
    assert_eq!((refusal.number, refusal.line), (15, 0));
    let listed = listing(ones("quota", 2, 3).as_bytes()).unwrap();
    assert!(listed.ends_with(b"s2,1,0,none,none\ntotal,3,2\n"));
}

#[test]
fn faults_of_the_head() {
    assert_eq!(refused("register,hill,3"), (2, 1));
    assert_eq!(refused("register,hill,3\n"), (2, 1));
    assert_eq!(refused("Register,hill,3,1\n"), (2, 1));
    assert_eq!(refused("register,,3,1\n"), (2, 1));
    assert_eq!(refused("register,hi ll,3,1\n"), (2, 1));
    assert_eq!(
        refused(&format!("register,{},3,1\n", "h".repeat(33))),
        (2, 1)
    );
    assert_eq!(
        refused(&format!("register,{},3,1\n", "h".repeat(32))),
        (4, 1)
    );
    assert_eq!(refused("register,Hill,3,1\n"), (4, 1));
    assert_eq!(refused("register,hilly,0,0\n"), (4, 1));
    assert_eq!(refused("register,hilly,x,1\n"), (2, 1));
    assert_eq!(refused("register,hill,0,1\n"), (3, 1));
    assert_eq!(refused("register,hill,3,0\n"), (3, 1));
    assert_eq!(refused("register,hill,9999999999,1\n"), (3, 1));
    assert_eq!(refused("register,hill,00000000003,1\n"), (2, 1));
    assert_eq!(refused("register,hill,3,1\n"), (2, 2));
    assert_eq!(refused("register,hill,3,1\r\r\n"), (2, 1));
}

#[test]
fn faults_of_a_state() {
    let state = |line: &str| refused(&format!("register,hill,3,2\nA,1\n{line}"));
    for ill in [
        "",
        "\n",
        "B\n",
        ",1\n",
        "B,\n",
        "B,1",
        " B,1\n",
        "B ,1\n",
        "B,1,\n",
        "B,-1\n",
        "B,+1\n",
        "B\t,1\n",
        "B\u{7f},1\n",
        "B,1 \n",
        "B,1\rx\n",
        "A,00000000000\n",
    ] {
        assert_eq!(state(ill), (2, 3), "{ill:?}");
    }
    assert_eq!(state(&format!("{},1\n", "B".repeat(33))), (2, 3));
    assert_eq!(state("A,0\n"), (3, 3));
    assert_eq!(state("A,4294967296\n"), (3, 3));
    assert_eq!(state("A,4294967295\n"), (5, 3));
    assert_eq!(state("B,4294967295\n"), (6, 3));
    assert_eq!(state("B,4294967294\n"), (2, 4));
    assert_eq!(state("a,1\n"), (2, 4));
    assert_eq!(state(&format!("{},1\n", "~".repeat(32))), (2, 4));
}

#[test]
fn faults_of_the_closing_line_and_after_it() {
    let closing = |lines: &str| refused(&format!("register,hill,3,1\nA,5\n{lines}"));
    assert_eq!(closing("total,5"), (2, 3));
    assert_eq!(closing("Total,5\n"), (2, 3));
    assert_eq!(closing("total,5,\n"), (2, 3));
    assert_eq!(closing("total,0\n"), (3, 3));
    assert_eq!(closing("total,4294967296\n"), (3, 3));
    assert_eq!(closing("total,4\n"), (7, 3));
    assert_eq!(closing("total,5\n\n"), (2, 4));
    assert_eq!(closing("total,5\nx"), (2, 4));
    assert_eq!(closing("total,4\nx"), (7, 3));
    // Too low a count reads a state line as the closing one, too high a count the other way.
    assert_eq!(closing("B,5\ntotal,10\n"), (2, 3));
    assert_eq!(closing("total,6\ntotal,11\n"), (7, 3));
    assert_eq!(refused("register,hill,3,2\nA,5\ntotal,5\n"), (2, 4));
}

#[test]
fn names_by_place() {
    let bytes = b"register,hill,3,2\nA,5\nB c,6\ntotal,11\n";
    assert_eq!(name(bytes, 0), Ok(&b"A"[..]));
    assert_eq!(name(bytes, 1), Ok(&b"B c"[..]));
    assert_eq!(
        name(bytes, 2),
        Err(Refusal {
            number: 40,
            line: 0
        })
    );
    assert_eq!(
        name(bytes, usize::MAX),
        Err(Refusal {
            number: 40,
            line: 0
        })
    );
    assert_eq!(name(b"", 7), Err(Refusal { number: 2, line: 1 }));
}

// ---- Listing

/// A register's listing as text.
fn listed(register: &str) -> String {
    String::from_utf8(listing(register.as_bytes()).unwrap()).unwrap()
}

#[test]
fn the_listing_of_the_document() {
    assert_eq!(
        listed("register,leximin,20,5\nA,26\nB,27\nC,28\nD,29\nE,91\ntotal,201\n"),
        "allotment,leximin,20,5\n\
         A,26,3,-13.765,high\n\
         B,27,3,-10.448,high\n\
         C,28,3,-7.131,in\n\
         D,29,3,-3.814,in\n\
         E,91,8,13.184,high\n\
         total,201,20\n"
    );
}

#[test]
fn a_listing_of_the_quota_method() {
    assert_eq!(
        listed("register,quota,100,5\nA,5117\nB,4400\nC,162\nD,161\nE,160\ntotal,10000\n"),
        "allotment,quota,100,5\n\
         A,5117,52,-1.596,in\n\
         B,4400,44,0.000,in\n\
         C,162,2,-19.000,over\n\
         D,161,1,61.000,over\n\
         E,160,1,60.000,over\n\
         total,10000,100\n"
    );
}

#[test]
fn a_listing_shows_halves_zeros_and_marks() {
    // The populations of two states with one seat each, and what is shown and marked.
    for (populations, lines) in [
        ([200_001, 199_999], ["0.001,in", "-0.001,in"]),
        ([249_999, 250_001], ["0.000,in", "0.000,in"]),
        ([110_001, 89_999], ["10.001,high", "-10.001,high"]),
        ([1_100_001, 899_999], ["10.000,high", "-10.000,high"]),
        ([84_996, 115_004], ["-15.004,over", "15.004,over"]),
    ] {
        let [p, q] = populations;
        let total = p + q;
        assert_eq!(
            listed(&format!("register,hill,2,2\nA,{p}\nB,{q}\ntotal,{total}\n")),
            format!(
                "allotment,hill,2,2\nA,{p},1,{}\nB,{q},1,{}\ntotal,{total},2\n",
                lines[0], lines[1]
            )
        );
    }
}

#[test]
fn a_listing_fits_exactly_or_is_refused_31() {
    let register = b"register,remainders,2,2\nA,1\nB,3\ntotal,4\n";
    let expected = listing(register).unwrap();
    for room in 0..expected.len() + 3 {
        let mut out = vec![0xEE; room];
        let outcome = write_listing(register, &mut out);
        if room < expected.len() {
            assert_eq!(
                outcome,
                Err(Refusal {
                    number: 31,
                    line: 0
                })
            );
            assert!(out.iter().all(|&b| b == 0xEE));
        } else {
            assert_eq!(outcome, Ok(expected.len()));
            assert_eq!(out[..expected.len()], expected);
            assert!(out[expected.len()..].iter().all(|&b| b == 0xEE));
        }
    }
}

#[test]
fn a_listing_is_never_longer_than_53_654_bytes() {
    let longest_head = format!("allotment,remainders,{HOUSE_LIMIT},{STATES_LIMIT}\n").len();
    let departure = shown_text(Some(shown(SUM_LIMIT, 1, SUM_LIMIT, HOUSE_LIMIT)));
    let longest_state = 32 + format!(",{SUM_LIMIT},{HOUSE_LIMIT},{departure},high\n").len();
    let longest_closing = format!("total,{SUM_LIMIT},{HOUSE_LIMIT}\n").len();
    assert_eq!((longest_head, longest_state, longest_closing), (31, 67, 23));
    assert_eq!(
        longest_head + STATES_LIMIT * longest_state + longest_closing,
        53_654
    );
}
