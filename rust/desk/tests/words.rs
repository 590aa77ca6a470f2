//! What is shown to people: refusals, methods, marks and departures in words, and the version.

use desk::*;
use std::fs;
use std::path::PathBuf;

fn in_the_repository(file: &str) -> PathBuf {
    PathBuf::from(env!("CARGO_MANIFEST_DIR"))
        .join("../..")
        .join(file)
}

/// A number with commas between thousands, as the sentences have it.
fn grouped(number: usize) -> String {
    let digits = number.to_string();
    let mut grouped = String::new();
    for (place, digit) in digits.chars().enumerate() {
        if place > 0 && (digits.len() - place) % 3 == 0 {
            grouped.push(',');
        }
        grouped.push(digit);
    }
    grouped
}

fn reason_of<T>(answer: Result<T, Refusal>) -> Option<Reason> {
    answer.err().and_then(|refusal| refusal.reason())
}

#[test]
fn the_crate_has_the_version_of_the_header() {
    assert_eq!(VERSION, env!("CARGO_PKG_VERSION"));
    let header = fs::read_to_string(in_the_repository("include/desk.h")).unwrap();
    for (part, name) in VERSION.split('.').zip(["MAJOR", "MINOR", "PATCH"]) {
        let line = format!("#define DESK_VERSION_{name} {part}");
        assert!(header.lines().any(|other| other == line), "{line}");
    }
}

#[test]
fn every_reason_has_its_number_and_words() {
    let numbers: Vec<u64> = Reason::ALL.iter().map(|reason| reason.number()).collect();
    assert_eq!(
        numbers,
        [1, 2, 3, 4, 5, 6, 7, 10, 11, 12, 13, 14, 15, 21, 30, 31, 40]
    );
    for &reason in Reason::ALL {
        assert_eq!(Reason::of(reason.number()), Some(reason));
        for text in [reason.sentence(), reason.remedy()] {
            assert!(text.is_ascii() && !text.contains(['"', '\\']), "{text}");
            // A clause that goes on after a colon.
            assert!(text.starts_with(|c: char| c.is_ascii_lowercase()), "{text}");
            assert!(!text.ends_with(['.', ' ']), "{text}");
        }
        // Rust's name is C's, in its own letters.
        let letters: String = reason.name().split('_').collect();
        assert_eq!(letters.to_lowercase(), format!("{reason:?}").to_lowercase());
    }
}

#[test]
fn every_reason_is_given_by_its_own_fault() {
    let long = vec![b'0'; 65_537];
    let registers: [(&[u8], Reason); 8] = [
        (&long, Reason::RegisterTooLong),
        (b"", Reason::LineIllFormed),
        (
            b"register,hill,0,1\nA,1\ntotal,1\n",
            Reason::NumberOutOfLimits,
        ),
        (b"register,Hill,3,1\nA,1\ntotal,1\n", Reason::MethodUnknown),
        (b"register,hill,3,2\nA,1\nA,1\ntotal,2\n", Reason::NameUsed),
        (
            b"register,hill,3,2\nA,4294967295\nB,1\ntotal,1\n",
            Reason::RunningSumTooLarge,
        ),
        (b"register,hill,3,1\nA,5\ntotal,4\n", Reason::TotalDiffers),
        (
            b"register,hill,1,2\nA,5\nB,5\ntotal,10\n",
            Reason::HouseBelowStates,
        ),
    ];
    let mut given = Vec::new();
    for (register, reason) in registers {
        assert_eq!(reason_of(listing(register)), Some(reason));
        given.push(reason);
    }
    let allotted = |house, populations: &[u64], room| {
        reason_of(allot(Method::Adams, house, populations, &mut vec![0; room]))
    };
    // SAFETY: the pointer has two numbers after it, and the placing is lent for the call alone.
    let moved = unsafe {
        let mut placing = ffi::desk_open([3, 3].as_ptr(), 2, 3).placing;
        placing.seats[0] += 1;
        ffi::desk_move(&mut placing, 1).refusal
    };
    let sound = b"register,hill,3,1\nA,5\ntotal,5\n";
    for (found, reason) in [
        (allotted(3, &[], 0), Reason::StatesOutOfLimits),
        (allotted(0, &[1], 1), Reason::HouseOutOfLimits),
        (allotted(3, &[0], 1), Reason::PopulationZero),
        (allotted(3, &[u64::MAX], 1), Reason::SumTooLarge),
        (allotted(3, &[1], 2), Reason::SeatListLength),
        (Reason::of(moved), Reason::PlacingForeign),
        (
            reason_of(departure(2, 1, 1, 1)),
            Reason::DepartureOutOfLimits,
        ),
        (
            reason_of(write_listing(sound, &mut [])),
            Reason::BufferTooShort,
        ),
        (reason_of(name(sound, 1)), Reason::PlaceOutOfStates),
    ] {
        assert_eq!(found, Some(reason));
        given.push(reason);
    }
    given.sort_by_key(|reason| reason.number());
    assert_eq!(given, Reason::ALL);
}

#[test]
fn the_words_name_the_limits_as_they_are() {
    let names = |reason: Reason, number: usize| {
        let words = format!("{}; {}", reason.sentence(), reason.remedy());
        let number = grouped(number);
        assert!(words.contains(&number), "{reason:?} without {number}");
    };
    // The largest that are taken; that one more is refused, the tests of the library show.
    let (house, sum) = (30_000, 4_294_967_295);
    names(Reason::RegisterTooLong, 65_536);
    for limit in [house, STATES_LIMIT, sum] {
        names(Reason::NumberOutOfLimits, limit);
    }
    names(Reason::RunningSumTooLarge, sum);
    names(Reason::StatesOutOfLimits, STATES_LIMIT);
    names(Reason::HouseOutOfLimits, house);
    names(Reason::SumTooLarge, sum);
    for limit in [house, sum] {
        names(Reason::DepartureOutOfLimits, limit);
    }
    for room in [LISTING_ROOM, CLEAN_ROOM] {
        names(Reason::BufferTooShort, room);
    }
    for method in Method::ALL {
        assert!(Reason::MethodUnknown.remedy().contains(method.word()));
        // The methods that may leave a state without a seat are those that accept a house of 1 for two.
        let seats = allot(method, 1, &[2, 1], &mut [0; 2]);
        let named = Reason::HouseBelowStates.remedy().contains(method.word());
        assert_eq!(seats.is_ok(), named, "{method}");
    }
}

#[test]
fn a_refusal_is_displayed_in_words_and_printed_as_numbers() {
    let on_a_line = Refusal { number: 7, line: 7 };
    assert_eq!(
        on_a_line.to_string(),
        "refused 7 on line 7: the closing total differs from the sum of the populations"
    );
    assert_eq!(on_a_line.printed(), "refused,7,7");
    let on_none = Refusal {
        number: 40,
        line: 0,
    };
    assert_eq!(on_none.to_string(), "refused 40: no state has that place");
    assert_eq!(on_none.printed(), "refused,40,0");
    for number in [0, 20, 41, u64::MAX] {
        let unknown = Refusal { number, line: 0 };
        assert_eq!(unknown.reason(), None);
        assert_eq!(
            unknown.to_string(),
            format!("refused {number}: no refusal of this version of the desk has that number")
        );
        assert!(!unknown.remedy().is_empty());
    }
    // It goes through `?` as any error does.
    let boxed: Box<dyn std::error::Error> = on_a_line.into();
    assert_eq!(boxed.to_string(), on_a_line.to_string());
}

#[test]
fn methods_are_displayed_as_registers_name_them() {
    for method in Method::ALL {
        let register = format!("register,{method},3,2\nA,1\nB,2\ntotal,3\n");
        assert_eq!(read(register.as_bytes()).unwrap().method(), method);
        assert_eq!(method.to_string().parse(), Ok(method));
        assert_eq!(format!("{method:>10}").trim_start(), method.word());
    }
    let unknown = Refusal { number: 4, line: 0 };
    for word in ["", "Hill", "hill ", "quotas", "0"] {
        assert_eq!(word.parse::<Method>(), Err(unknown), "{word}");
    }
}

#[test]
fn departures_and_marks_are_displayed_as_listings_have_them() {
    let mut states = 0;
    for entry in fs::read_dir(in_the_repository("examples")).unwrap() {
        let path = entry.unwrap().path();
        if path.extension() != Some("register".as_ref()) {
            continue;
        }
        let bytes = fs::read(&path).unwrap();
        let Ok(listing) = listing(&bytes) else {
            continue;
        };
        let register = read(&bytes).unwrap();
        let listing = String::from_utf8(listing).unwrap();
        for line in listing.lines().skip(1).take(register.populations().len()) {
            let fields: Vec<&str> = line.split(',').collect();
            let [population, seats] = [1, 2].map(|field| fields[field].parse().unwrap());
            let departure = departure(population, seats, register.total(), register.house());
            let shown = match departure.unwrap() {
                Some(departure) => format!("{departure},{}", departure.mark),
                None => "none,none".to_string(),
            };
            assert_eq!(shown, fields[3..].join(","), "{}: {line}", path.display());
            states += 1;
        }
    }
    assert!(states > 900, "{states} states were looked at");
    // What the examples may not have: zero from either side, less than one, and a width.
    for (shown, text) in [
        (0, "0.000"),
        (7, "0.007"),
        (-7, "-0.007"),
        (-99_999, "-99.999"),
        (299_990_000, "299990.000"),
        (i64::MIN, "-9223372036854775.808"),
    ] {
        let departure = Departure {
            shown,
            mark: Mark::Over,
        };
        assert_eq!(departure.to_string(), text);
        assert_eq!(format!("{departure:>24}").trim_start(), text);
    }
}
