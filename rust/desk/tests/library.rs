//! The library through its safe wrappers: the example registers and each kind of refusal. What it
//! answers in general is left to the comparison with the reference.

use desk::*;
use std::fs;
use std::mem::size_of;
use std::path::PathBuf;

/// The largest house that the library takes.
const HOUSE_LIMIT: u64 = 30_000;

fn example(file: &str) -> Vec<u8> {
    let folder = PathBuf::from(env!("CARGO_MANIFEST_DIR")).join("../../examples");
    fs::read(folder.join(file)).expect(file)
}

#[test]
fn structures_have_the_sizes_of_the_header() {
    assert_eq!(size_of::<ffi::Reading>(), 8 * (6 + STATES_LIMIT));
    assert_eq!(size_of::<ffi::Allotted>(), 8 * 2);
    assert_eq!(size_of::<ffi::Placing>(), 8 * (4 + 2 * STATES_LIMIT));
    assert_eq!(size_of::<ffi::Placed>(), 8 * (5 + 2 * STATES_LIMIT));
    assert_eq!(size_of::<ffi::Moved>(), 8 * 2);
    assert_eq!(size_of::<ffi::Shown>(), 8 * 3);
    assert_eq!(size_of::<ffi::Written>(), 8 * 3);
    assert_eq!(size_of::<ffi::Part>(), 8 * 4);
}

#[test]
fn seats_are_those_of_the_tables() {
    for file in [
        "five-states",
        "hungary-counties",
        "hungary-regions",
        "united-states",
        "united-states-hill",
    ] {
        let bytes = example(&format!("{file}.register"));
        let register = read(&bytes).unwrap();
        let mut seats = vec![0; register.populations().len()];
        allot(
            register.method(),
            register.house(),
            register.populations(),
            &mut seats,
        )
        .unwrap();
        let mut printed = String::new();
        for (place, a) in seats.iter().enumerate() {
            let name = String::from_utf8_lossy(name(&bytes, place).unwrap());
            printed += &format!("{name},{a}\n");
        }
        let expected = String::from_utf8(example(&format!("{file}.seats"))).unwrap();
        assert_eq!(printed, expected, "{file}");
        assert_eq!(
            register.populations().iter().sum::<u64>(),
            register.total(),
            "{file}"
        );
    }
}

#[test]
fn listings_are_those_beside_the_registers() {
    for file in ["five-states", "cut-short", "false-total", "name-twice"] {
        let printed = match listing(&example(&format!("{file}.register"))) {
            Ok(listing) => listing,
            Err(refusal) => format!("{}\n", refusal.printed()).into_bytes(),
        };
        assert_eq!(printed, example(&format!("{file}.listing")), "{file}");
    }
}

#[test]
fn every_method_has_its_number() {
    for (method, word) in Method::ALL.into_iter().zip([
        "leximin",
        "adams",
        "dean",
        "hill",
        "webster",
        "jefferson",
        "remainders",
        "quota",
    ]) {
        let register = format!("register,{word},3,2\nA,1\nB,2\ntotal,3\n");
        assert_eq!(read(register.as_bytes()).unwrap().method(), method);
    }
    for word in ["quotas", "quot", "Quota"] {
        let register = format!("register,{word},3,2\nA,1\nB,2\ntotal,3\n");
        assert_eq!(
            read(register.as_bytes()),
            Err(Refusal { number: 4, line: 1 })
        );
    }
}

#[test]
fn a_number_past_the_last_method_is_refused() {
    let mut seats = [7; 2];
    for method in [Method::Quota as u64 + 1, u64::MAX] {
        // SAFETY: both pointers have two numbers after them.
        let allotted =
            unsafe { ffi::desk_allot(method, 2, [1, 3].as_ptr(), 2, seats.as_mut_ptr(), 2) };
        assert_eq!((allotted.refusal, allotted.steps), (4, 0));
        assert_eq!(seats, [7; 2]);
    }
}

#[test]
fn quota_keeps_each_state_within_its_quota() {
    let populations = [5_117, 4_400, 162, 161, 160];
    let mut seats = [0; 5];
    assert_eq!(allot(Method::Quota, 100, &populations, &mut seats), Ok(0));
    assert_eq!(seats, [52, 44, 2, 1, 1]);
    let mut seats = [7; 3];
    assert_eq!(allot(Method::Quota, 2, &[5, 5, 5], &mut seats), Ok(0));
    assert_eq!(seats, [1, 1, 0]);
}

#[test]
fn refusals_leave_what_was_lent() {
    let refused = |number, line| Refusal { number, line };
    let mut seats = [7; 3];
    assert_eq!(
        allot(Method::Leximin, 2, &[5, 5, 5], &mut seats),
        Err(refused(15, 0))
    );
    assert_eq!(seats, [7; 3]);
    let mut out = [7; 10];
    assert_eq!(
        write_listing(&example("five-states.register"), &mut out),
        Err(refused(31, 0))
    );
    assert_eq!(out, [7; 10]);
    assert_eq!(
        name(&example("five-states.register"), 5),
        Err(refused(40, 0))
    );
    assert_eq!(read(b""), Err(refused(2, 1)));
    assert_eq!(departure(1, 1, 0, 1), Err(refused(30, 0)));
    assert_eq!(Placing::open(&[], 1), Err(refused(10, 0)));
}

#[test]
fn moving_ends_at_the_house() {
    let mut placing = Placing::open(&[26, 27, 28, 29, 91], 20).unwrap();
    assert_eq!((placing.total(), placing.steps()), (21, 0));
    assert_eq!(placing.advance(1), Ok(1));
    assert_eq!((placing.total(), placing.steps()), (20, 1));
    assert_eq!(placing.seats(), [3, 3, 3, 3, 8]);
    let at_house = placing.clone();
    for seats in [0, 1, u64::MAX] {
        assert_eq!(placing.advance(seats), Ok(0));
        assert_eq!(placing, at_house);
    }
}

#[test]
fn moving_by_none_leaves_a_placing_as_it_was() {
    let opened = Placing::open(&[1, 1, 1, 97], 4).unwrap();
    let mut placing = opened.clone();
    assert_eq!(placing.advance(0), Ok(0));
    assert_eq!(placing, opened);
}

#[test]
fn every_method_allots_the_largest_house_to_the_most_states() {
    // Equal shares of 37 seats and a half: the first half of the states has 38.
    assert_eq!(STATES_LIMIT, 800);
    let expected: Vec<u64> = (0..800).map(|i| 37 + (i < 400) as u64).collect();
    let populations = [5_368_709; STATES_LIMIT];
    for method in Method::ALL {
        let mut seats = [0; STATES_LIMIT];
        let steps = if method == Method::Leximin { 400 } else { 0 };
        assert_eq!(
            allot(method, HOUSE_LIMIT, &populations, &mut seats),
            Ok(steps)
        );
        assert_eq!(seats[..], expected, "{method:?}");
    }
}

#[test]
fn past_the_limits_a_house_and_states_are_refused() {
    let refused = |number| Refusal { number, line: 0 };
    for method in Method::ALL {
        let mut seats = [7; STATES_LIMIT + 1];
        let states = [1; STATES_LIMIT + 1];
        assert_eq!(
            allot(method, HOUSE_LIMIT, &states, &mut seats),
            Err(refused(10))
        );
        assert_eq!(
            allot(
                method,
                HOUSE_LIMIT + 1,
                &states[1..],
                &mut seats[..STATES_LIMIT]
            ),
            Err(refused(11))
        );
        assert_eq!(seats, [7; STATES_LIMIT + 1]);
        assert_eq!(Placing::open(&states, HOUSE_LIMIT), Err(refused(10)));
        assert_eq!(
            Placing::open(&states[1..], HOUSE_LIMIT + 1),
            Err(refused(11))
        );
    }
}

/// A placing at the limits: the last state has all voters but one for each other, and gives up a seat
/// with every move.
fn longest_walk() -> Placing {
    let states = STATES_LIMIT as u64;
    let mut populations = [1; STATES_LIMIT];
    populations[STATES_LIMIT - 1] = 4_294_967_295 - (states - 1);
    Placing::open(&populations, states).unwrap()
}

#[test]
fn a_walk_at_the_limit_ends_at_the_house() {
    let states = STATES_LIMIT as u64;
    let mut placing = longest_walk();
    assert_eq!(placing.total(), 2 * states - 1);
    for k in 1..states {
        assert_eq!(placing.advance(1), Ok(1));
        assert_eq!((placing.total(), placing.steps()), (2 * states - 1 - k, k));
    }
    assert_eq!(placing.seats(), [1; STATES_LIMIT]);
    assert_eq!(placing.advance(1), Ok(0));
}

#[test]
fn a_walk_by_any_numbers_ends_in_the_same_placing() {
    let gap = STATES_LIMIT as u64 - 1;
    let mut by_one = longest_walk();
    for _ in 0..gap {
        by_one.advance(1).unwrap();
    }
    // The numbers asked for, and how many are moved by each.
    let lists: [&[(u64, u64)]; 6] = [
        &[(gap, gap)],
        &[(u64::MAX, gap), (u64::MAX, 0)],
        &[(gap + 1, gap)],
        &[(gap / 2, gap / 2), (gap - gap / 2, gap - gap / 2)],
        &[(0, 0), (gap - 1, gap - 1), (0, 0), (2, 1), (0, 0)],
        &[(1, 1), (u64::MAX, gap - 1)],
    ];
    for list in lists {
        let mut placing = longest_walk();
        for &(seats, moved) in list {
            assert_eq!(placing.advance(seats), Ok(moved), "{list:?}");
        }
        assert_eq!(placing, by_one, "{list:?}");
    }
}

#[test]
fn a_foreign_placing_is_refused_and_left_as_it_was() {
    // SAFETY: the pointer has two numbers after it.
    let mut opened = unsafe { ffi::desk_open([3, 3].as_ptr(), 2, 3) }.placing;
    assert_eq!((opened.total, opened.seats[..2].to_vec()), (4, vec![2, 2]));
    let at_start = opened;
    // SAFETY: the placing is lent for the call alone, here and below.
    let moved = |placing: &mut ffi::Placing, seats| unsafe { ffi::desk_move(placing, seats) };
    assert_eq!(moved(&mut opened, 1).moved, 1);
    let at_house = opened;
    type Edit = fn(&mut ffi::Placing);
    let edits: [(&str, Edit); 10] = [
        ("a seat past its states", |p| p.seats[2] = 1),
        ("a seat in the last place", |p| {
            p.seats[STATES_LIMIT - 1] = u64::MAX
        }),
        ("a population past its states", |p| p.populations[2] = 7),
        ("junk in all places past its states", |p| {
            p.seats[2..].fill(u64::MAX);
            p.populations[2..].fill(u64::MAX);
        }),
        ("seats of the other state", |p| {
            (p.seats[0], p.seats[1]) = (1, p.total - 1)
        }),
        ("a wrong total", |p| p.total += 1),
        ("overstated steps", |p| p.steps = u64::MAX),
        ("another house", |p| p.house = 5),
        ("more states than the limit", |p| {
            p.states = STATES_LIMIT as u64 + 1
        }),
        ("no states", |p| p.states = 0),
    ];
    for (what, edit) in edits {
        for genuine in [at_start, at_house] {
            let mut forged = genuine;
            edit(&mut forged);
            let before = forged;
            for seats in [0, 1, 2, u64::MAX] {
                let answer = moved(&mut forged, seats);
                assert_eq!((answer.refusal, answer.moved), (21, 0), "{what}, {seats}");
                assert_eq!(forged, before, "{what}, {seats}");
            }
        }
    }
}

#[test]
fn a_register_at_the_limits_is_read_and_listed() {
    let register = |house: u64, count: usize| {
        let states: String = (0..count).map(|i| format!("{i:~>32},5368709\n")).collect();
        let sum = 5_368_709 * count;
        format!("register,remainders,{house},{count}\n{states}total,{sum}\n").into_bytes()
    };
    let bytes = register(HOUSE_LIMIT, STATES_LIMIT);
    assert_eq!(
        read(&bytes).unwrap().populations(),
        [5_368_709; STATES_LIMIT]
    );
    let name_at = |place| name(&bytes, place).map(<[u8]>::to_vec);
    assert_eq!(name_at(799), Ok(format!("{:~>32}", 799).into_bytes()));
    assert_eq!(name_at(800).unwrap_err().number, 40);
    let listing = listing(&bytes).unwrap();
    assert!(listing.len() <= LISTING_ROOM);
    assert!(listing.ends_with(b"799,5368709,37,1.351,in\ntotal,4294967200,30000\n"));

    for past in [
        register(HOUSE_LIMIT + 1, STATES_LIMIT),
        register(HOUSE_LIMIT, STATES_LIMIT + 1),
    ] {
        let refusal = Refusal { number: 3, line: 1 };
        assert_eq!(read(&past), Err(refusal));
        assert_eq!(write_listing(&past, &mut []), Err(refusal));
    }
}

/// A register typed with leading zeros and mixed line ends, and its clean copy.
const TYPED: &[u8] = b"register,hill,0020,02\r\nNew  York,007\n007,0013\r\ntotal,020\r\n";
const CLEAN: &[u8] = b"register,hill,20,2\nNew  York,7\n007,13\ntotal,20\n";

#[test]
fn a_clean_copy_has_no_leading_zeros_and_plain_line_ends() {
    assert_eq!(clean(TYPED).unwrap(), CLEAN);
    assert_eq!(clean(CLEAN).unwrap(), CLEAN);
    assert_eq!(read(CLEAN), read(TYPED));
    for place in 0..3 {
        assert_eq!(name(CLEAN, place), name(TYPED, place));
    }
    for file in ["five-states", "hungary-counties", "united-states-hill"] {
        let register = example(&format!("{file}.register"));
        assert_eq!(clean(&register).unwrap(), register, "{file}");
    }
}

#[test]
fn a_clean_copy_fits_exactly_or_is_refused_31() {
    let too_short = Refusal {
        number: 31,
        line: 0,
    };
    for room in [0, 1, CLEAN.len() - 1] {
        let mut out = vec![7; room];
        assert_eq!(write_clean(TYPED, &mut out), Err(too_short));
        assert_eq!(out, vec![7; room]);
    }
    for more in [0, 1, 100] {
        let mut out = vec![7; CLEAN.len() + more];
        assert_eq!(write_clean(TYPED, &mut out), Ok(CLEAN.len()));
        assert_eq!(out[..CLEAN.len()], *CLEAN);
        assert_eq!(out[CLEAN.len()..], vec![7; more]);
    }
}

#[test]
fn cleaning_is_refused_by_reading_before_31() {
    let cut = &TYPED[..TYPED.len() - 1];
    let long = vec![b'0'; 65_537];
    let refused: [(&[u8], u64, u64); 8] = [
        (&long, 1, 0),
        (b"", 2, 1),
        (cut, 2, 4),
        (b"register,hill,0,1\nA,1\ntotal,1\n", 3, 1),
        (b"register,Hill,3,1\nA,1\ntotal,1\n", 4, 1),
        (b"register,hill,3,2\nA,1\nA,1\ntotal,2\n", 5, 3),
        (b"register,hill,3,2\nA,4294967295\nB,1\ntotal,1\n", 6, 3),
        (b"register,hill,3,1\nA,5\ntotal,4\n", 7, 3),
    ];
    for (register, number, line) in refused {
        for room in [0, 10, 1_000] {
            let mut out = vec![7; room];
            let refusal = Refusal { number, line };
            assert_eq!(write_clean(register, &mut out), Err(refusal));
            assert_eq!(out, vec![7; room], "{refusal}");
        }
        assert_eq!(clean(register), Err(Refusal { number, line }));
    }
}

#[test]
fn a_house_below_the_states_is_cleaned_and_not_listed() {
    let register = b"register,leximin,02,03\nA,1\nB,1\nC,1\ntotal,3\n";
    assert_eq!(listing(register).unwrap_err().number, 15);
    let copy = b"register,leximin,2,3\nA,1\nB,1\nC,1\ntotal,3\n";
    assert_eq!(clean(register).unwrap(), copy);
}

#[test]
fn the_longest_register_is_cleaned_with_every_name() {
    let sum = 5_368_709 * STATES_LIMIT;
    let mut typed = format!("register,remainders,{HOUSE_LIMIT:010},{STATES_LIMIT:010}\r\n");
    let mut expected = format!("register,remainders,{HOUSE_LIMIT},{STATES_LIMIT}\n");
    for i in 0..STATES_LIMIT {
        typed += &format!("{i:~>32},{:010}\r\n", 5_368_709);
        expected += &format!("{i:~>32},5368709\n");
    }
    typed += &format!("total,{sum:010}\r\n");
    expected += &format!("total,{sum}\n");
    let (typed, expected) = (typed.as_bytes(), expected.as_bytes());
    let copy = clean(typed).unwrap();
    assert_eq!(copy, expected);
    assert!(copy.len() <= CLEAN_ROOM);
    assert_eq!(CLEAN_ROOM, 35_247);
    assert_eq!(read(&copy), read(typed));
    for place in 0..=STATES_LIMIT {
        assert_eq!(name(&copy, place), name(typed, place));
    }
    assert_eq!(clean(&copy).unwrap(), copy);
}

#[test]
fn departures_are_shown_and_marked() {
    let shown = |shown, mark| Ok(Some(Departure { shown, mark }));
    assert_eq!(departure(11, 1, 20, 2), shown(10_000, Mark::In));
    assert_eq!(departure(1_101, 1, 2_000, 2), shown(10_100, Mark::High));
    assert_eq!(departure(115_004, 1, 200_000, 2), shown(15_004, Mark::Over));
    let beyond = departure(1_100_001, 1, 2_000_000, 2);
    assert_eq!(beyond, shown(10_000, Mark::High));
    assert_eq!(departure(26, 3, 201, 20), shown(-13_765, Mark::High));
    assert_eq!(departure(4, 1, 8, 4), shown(SHOWN_SCALE, Mark::Over));
    assert_eq!(departure(1, 0, 100, 2), Ok(None));
}

#[test]
fn halves_of_a_thousandth_are_rounded_away_from_zero() {
    let shown = |p, total, house| departure(p, 1, total, house).unwrap().unwrap().shown;
    assert_eq!(shown(200_001, 400_000, 2), 1);
    assert_eq!(shown(199_999, 400_000, 2), -1);
    assert_eq!(shown(250_001, 500_000, 2), 0);
    assert_eq!(shown(249_999, 500_000, 2), 0);
    assert_eq!(shown(133_334, 4_000_000_000, HOUSE_LIMIT), 1);
    let large = shown(3_999_999_998, 4_000_000_000, HOUSE_LIMIT);
    assert_eq!(large, 2_999_899_999);
}

#[test]
fn the_largest_departures_are_shown() {
    let most = 4_294_967_295;
    let shown = |shown, mark| Ok(Some(Departure { shown, mark }));
    let above = departure(most, 1, most, HOUSE_LIMIT);
    assert_eq!(above, shown(2_999_900_000, Mark::Over));
    let below = departure(1, HOUSE_LIMIT, most, HOUSE_LIMIT);
    assert_eq!(below, shown(-SHOWN_SCALE, Mark::Over));
    assert_eq!(
        departure(most, 1, most, HOUSE_LIMIT + 1)
            .unwrap_err()
            .number,
        30
    );
}
