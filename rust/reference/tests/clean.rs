//! Clean copies of registers: what they look like, the four laws that they keep, and when they are
//! refused.

use reference::*;

/// A register's clean copy as text.
fn cleaned(register: &str) -> String {
    String::from_utf8(clean(register.as_bytes()).unwrap()).unwrap()
}

/// A register of some states in which each number has ten digits and each line ends in CR LF, and
/// the same register as it is when clean.
fn wide_and_clean(method: Method, house: u64, states: &[(String, u64)]) -> (String, String) {
    let (method, n) = (method.name(), states.len());
    let sum: u64 = states.iter().map(|(_, population)| population).sum();
    let mut wide = format!("register,{method},{house:010},{n:010}\r\n");
    let mut clean = format!("register,{method},{house},{n}\n");
    for (name, population) in states {
        wide += &format!("{name},{population:010}\r\n");
        clean += &format!("{name},{population}\n");
    }
    wide += &format!("total,{sum:010}\r\n");
    clean += &format!("total,{sum}\n");
    (wide, clean)
}

/// As many states as can be, with the longest names and the largest sum.
fn largest() -> Vec<(String, u64)> {
    let population = SUM_LIMIT / STATES_LIMIT as u64;
    let mut states: Vec<(String, u64)> = (0..STATES_LIMIT)
        .map(|i| (format!("{i:~>32}"), population))
        .collect();
    states[0].1 += SUM_LIMIT % STATES_LIMIT as u64;
    states
}

/// Registers of which no two say the same, each typed in two ways or more.
const TYPED: [&[&str]; 9] = [
    &[
        "register,hill,0020,02\r\nNorth,007\nSouth,0013\r\ntotal,020\r\n",
        "register,hill,20,2\nNorth,7\nSouth,13\ntotal,20\n",
        "register,hill,20,2\r\nNorth,7\r\nSouth,13\r\ntotal,20\r\n",
        "register,hill,0000000020,0000000002\nNorth,0000000007\nSouth,13\ntotal,0000000020\n",
    ],
    // Another method, another house, the states or their populations exchanged.
    &[
        "register,dean,20,2\nNorth,7\nSouth,13\ntotal,20\n",
        "register,dean,020,2\nNorth,7\nSouth,13\ntotal,20\r\n",
    ],
    &[
        "register,hill,200,2\nNorth,7\nSouth,13\ntotal,20\n",
        "register,hill,0200,02\nNorth,7\nSouth,13\ntotal,20\n",
    ],
    &[
        "register,hill,20,2\nSouth,13\nNorth,7\ntotal,20\n",
        "register,hill,20,2\r\nSouth,013\nNorth,07\r\ntotal,20\n",
    ],
    &[
        "register,hill,20,2\nNorth,13\nSouth,7\ntotal,20\n",
        "register,hill,20,2\nNorth,13\r\nSouth,000007\r\ntotal,20\n",
    ],
    // A state more, and the same bytes parted otherwise between name and population.
    &[
        "register,hill,20,3\nNorth,7\nSouth,13\nEast,1\ntotal,21\n",
        "register,hill,20,003\nNorth,7\nSouth,13\nEast,0001\ntotal,21\n",
    ],
    &[
        "register,hill,20,2\nNorth7,7\nSouth,13\ntotal,20\n",
        "register,hill,20,2\nNorth7,07\nSouth,13\ntotal,20\n",
    ],
    // Names that differ in case only, and names of digits and blanks.
    &[
        "register,quota,30000,2\nnorth,4294967294\nNorth,1\ntotal,4294967295\n",
        "register,quota,30000,2\nnorth,4294967294\r\nNorth,0000000001\ntotal,4294967295\n",
    ],
    &[
        "register,leximin,1,3\n007,10\n7,100\nA  B,1000\ntotal,1110\n",
        "register,leximin,01,3\n007,010\r\n7,0100\r\nA  B,01000\ntotal,01110\n",
    ],
];

fn all_typed<'a>() -> impl Iterator<Item = &'a str> {
    TYPED.into_iter().flatten().copied()
}

// ---- What a clean copy looks like

#[test]
fn leading_zeros_and_carriage_returns_go() {
    assert_eq!(
        cleaned("register,hill,0020,02\r\nNorth,007\nSouth,0013\r\ntotal,020\r\n"),
        "register,hill,20,2\nNorth,7\nSouth,13\ntotal,20\n"
    );
}

#[test]
fn zeros_within_a_number_and_at_its_end_stay() {
    let register = "register,webster,30000,2\nA,1002003000\nB,10\ntotal,1002003010\n";
    assert_eq!(cleaned(register), register);
    let typed = "register,webster,0000030000,002\nA,1002003000\nB,0010\ntotal,1002003010\n";
    assert_eq!(cleaned(typed), register);
}

#[test]
fn names_stay_as_they_are() {
    // Blanks within, zeros in front, words of the register itself, the first and the last byte of
    // those allowed, and 32 bytes.
    let long = "~".repeat(32);
    for name in [
        "New  York",
        "a b c",
        "007",
        "0",
        "total",
        "register",
        "hill",
        "!",
        "-1",
        &long,
    ] {
        assert_eq!(
            cleaned(&format!("register,dean,3,01\r\n{name},05\r\ntotal,5\r\n")),
            format!("register,dean,3,1\n{name},5\ntotal,5\n")
        );
    }
}

#[test]
fn a_state_named_total_is_no_closing_line() {
    assert_eq!(
        cleaned("register,adams,3,2\ntotal,05\r\nA,05\ntotal,10\n"),
        "register,adams,3,2\ntotal,5\nA,5\ntotal,10\n"
    );
    assert_eq!(
        cleaned("register,adams,3,2\nA,05\ntotal,05\ntotal,10\r\n"),
        "register,adams,3,2\nA,5\ntotal,5\ntotal,10\n"
    );
}

#[test]
fn names_that_differ_in_case_only_both_stay() {
    let register = "register,jefferson,3,3\nabc,1\nABC,2\nAbc,3\ntotal,6\n";
    assert_eq!(cleaned(register), register);
}

#[test]
fn every_method_keeps_its_word() {
    for method in Method::ALL {
        let states = [("A".to_string(), 1), ("B".to_string(), 2)];
        let (wide, expected) = wide_and_clean(method, 3, &states);
        assert_eq!(cleaned(&wide), expected);
    }
}

#[test]
fn a_house_below_the_states_is_no_hindrance() {
    let register = "register,leximin,2,3\nA,1\nB,1\nC,1\ntotal,3\n";
    assert_eq!(listing(register.as_bytes()).unwrap_err().number, 15);
    assert_eq!(cleaned(register), register);
}

#[test]
fn the_largest_register_is_cleaned() {
    let (wide, expected) = wide_and_clean(Method::Remainders, HOUSE_LIMIT, &largest());
    assert_eq!(wide.len(), 36_061);
    assert_eq!(cleaned(&wide), expected);
    assert_eq!(cleaned(&expected), expected);
    // One state with all the population has the longest closing line too.
    let (wide, expected) = wide_and_clean(Method::Quota, 1, &[("A".to_string(), SUM_LIMIT)]);
    assert_eq!(cleaned(&wide), expected);
}

#[test]
fn a_clean_copy_is_never_longer_than_35_247_bytes() {
    let longest_head = format!("register,remainders,{HOUSE_LIMIT},{STATES_LIMIT}\n").len();
    let longest_state = 32 + format!(",{SUM_LIMIT}\n").len();
    let longest_closing = format!("total,{SUM_LIMIT}\n").len();
    assert_eq!((longest_head, longest_state, longest_closing), (30, 44, 17));
    assert_eq!(
        longest_head + STATES_LIMIT * longest_state + longest_closing,
        35_247
    );
}

// ---- The four laws

#[test]
fn a_clean_copy_is_accepted_and_reads_as_its_register_did() {
    let (wide, _) = wide_and_clean(Method::Remainders, HOUSE_LIMIT, &largest());
    for register in all_typed().chain([&wide[..]]) {
        let copy = cleaned(register);
        assert_eq!(read(copy.as_bytes()), read(register.as_bytes()));
        assert!(read(register.as_bytes()).is_ok());
        assert!(copy.len() <= register.len());
    }
}

#[test]
fn cleaning_a_second_time_alters_no_byte() {
    let (wide, _) = wide_and_clean(Method::Remainders, HOUSE_LIMIT, &largest());
    for register in all_typed().chain([&wide[..]]) {
        let copy = cleaned(register);
        assert_eq!(cleaned(&copy), copy);
    }
}

#[test]
fn registers_that_say_the_same_and_only_they_have_equal_clean_copies() {
    for (i, first) in TYPED.iter().enumerate() {
        for (j, second) in TYPED.iter().enumerate() {
            for one in first.iter() {
                for other in second.iter() {
                    let (copies, same) = ([cleaned(one), cleaned(other)], i == j);
                    assert_eq!(copies[0] == copies[1], same, "{one:?} {other:?}");
                }
            }
        }
    }
}

#[test]
fn one_byte_in_the_largest_register_makes_another_clean_copy() {
    let states = largest();
    let last = STATES_LIMIT - 1;
    let copy_of = |states: &[(String, u64)]| {
        let (wide, _) = wide_and_clean(Method::Remainders, HOUSE_LIMIT, states);
        cleaned(&wide)
    };
    let copy = copy_of(&states);
    let mut other = states.clone();
    other[last].0.replace_range(0..1, "}");
    assert_ne!(copy_of(&other), copy);
    let mut other = states.clone();
    other[last].1 -= 1;
    assert_ne!(copy_of(&other), copy);
    let mut other = states.clone();
    other.swap(last, last - 1);
    assert_ne!(copy_of(&other), copy);
    assert_eq!(copy_of(&states), copy);
}

// ---- Refusals

#[test]
fn a_clean_copy_fits_exactly_or_is_refused_31() {
    for register in all_typed() {
        let expected = clean(register.as_bytes()).unwrap();
        for room in 0..expected.len() + 3 {
            let mut out = vec![0xEE; room];
            let outcome = write_clean(register.as_bytes(), &mut out);
            if room < expected.len() {
                let refusal = Refusal {
                    number: 31,
                    line: 0,
                };
                assert_eq!(outcome, Err(refusal));
                assert!(out.iter().all(|&b| b == 0xEE));
            } else {
                assert_eq!(outcome, Ok(expected.len()));
                assert_eq!(out[..expected.len()], expected);
                assert!(out[expected.len()..].iter().all(|&b| b == 0xEE));
            }
        }
    }
}

#[test]
fn reading_refuses_before_31() {
    let long = "0".repeat(BYTES_LIMIT + 1);
    for (register, number, line) in [
        (&long[..], 1, 0),
        ("", 2, 1),
        ("register,hill,3,1\nA,1\ntotal,1", 2, 3),
        ("register,hill,3,1\nA,1\ntotal,1\n\n", 2, 4),
        ("register,hill,3,1\nA,0\ntotal,1\n", 3, 2),
        ("register,hilly,3,1\nA,1\ntotal,1\n", 4, 1),
        ("register,hill,3,2\nA,1\nA,1\ntotal,2\n", 5, 3),
        (
            "register,hill,3,2\nA,4294967295\nB,1\ntotal,4294967295\n",
            6,
            3,
        ),
        ("register,hill,3,1\nA,5\ntotal,4\n", 7, 3),
    ] {
        let refusal = Refusal { number, line };
        assert_eq!(clean(register.as_bytes()), Err(refusal));
        for room in [0, 1, 1_000] {
            let mut out = vec![0xEE; room];
            assert_eq!(write_clean(register.as_bytes(), &mut out), Err(refusal));
            assert!(out.iter().all(|&b| b == 0xEE));
        }
    }
}
