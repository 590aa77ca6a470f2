//! That clean copies are put to the test: writers with a rule of their own would be found by the
//! inputs of a run, by their bytes and by the laws, and the pairs of registers are of both kinds.

use compare::clean::{equal_where_same, reads_alike, stays};
use compare::{check, Case, Counts, Inputs};
use reference::{clean, read, Refusal};

/// A writer of clean copies by its rules: how it types a method, a number, the closing total, the
/// name of a state and the end of a line, and how it orders the lines of the states.
struct Writer {
    name: &'static str,
    method: fn(&str) -> &str,
    number: fn(&str) -> String,
    total: fn(&str) -> String,
    state: fn(&str) -> String,
    end: fn(&str) -> &str,
    order: fn(&mut [String]),
    /// By what it is found for certain.
    found: &'static [By],
}

/// What finds a wrong writer: other bytes than the plain desk's, a copy that reads otherwise, a copy
/// that does not stay when cleaned again, or a pair whose copies are equal or not where they should
/// not be or should.
#[derive(Clone, Copy, Debug, PartialEq, Eq)]
enum By {
    Bytes,
    Reading,
    Again,
    Pairs,
}

const WAYS: [By; 4] = [By::Bytes, By::Reading, By::Again, By::Pairs];

const RIGHT: Writer = Writer {
    name: "the right one",
    method: |word| word,
    number: |typed| typed.trim_start_matches('0').to_string(),
    total: |typed| typed.trim_start_matches('0').to_string(),
    state: |name| name.to_string(),
    end: |_| "\n",
    order: |_| (),
    found: &[],
};

const WRONG: [Writer; 13] = [
    Writer {
        name: "nothing cleaned",
        number: |typed| typed.to_string(),
        total: |typed| typed.to_string(),
        end: |typed| typed,
        found: &[By::Bytes, By::Pairs],
        ..RIGHT
    },
    Writer {
        name: "zeros kept",
        number: |typed| typed.to_string(),
        found: &[By::Bytes, By::Pairs],
        ..RIGHT
    },
    Writer {
        name: "the total as typed",
        total: |typed| typed.to_string(),
        found: &[By::Bytes, By::Pairs],
        ..RIGHT
    },
    Writer {
        name: "line ends kept",
        end: |typed| typed,
        found: &[By::Bytes, By::Pairs],
        ..RIGHT
    },
    Writer {
        name: "one zero taken away",
        number: |typed| typed.strip_prefix('0').unwrap_or(typed).to_string(),
        found: &[By::Bytes, By::Again, By::Pairs],
        ..RIGHT
    },
    Writer {
        name: "zeros at the end taken away too",
        number: |typed| typed.trim_matches('0').to_string(),
        found: &[By::Bytes, By::Reading],
        ..RIGHT
    },
    // One form for each register, and it reads as it should; but it is another than was asked for.
    Writer {
        name: "CR LF everywhere",
        end: |_| "\r\n",
        found: &[By::Bytes],
        ..RIGHT
    },
    Writer {
        name: "ten digits everywhere",
        number: |typed| format!("{typed:0>10}"),
        total: |typed| format!("{typed:0>10}"),
        found: &[By::Bytes],
        ..RIGHT
    },
    Writer {
        name: "names in small letters",
        state: |name| name.to_lowercase(),
        found: &[By::Bytes, By::Reading, By::Pairs],
        ..RIGHT
    },
    Writer {
        name: "names without blanks",
        state: |name| name.replace(' ', ""),
        found: &[By::Bytes, By::Reading, By::Pairs],
        ..RIGHT
    },
    Writer {
        name: "names without leading zeros",
        state: |name| name.trim_start_matches('0').to_string(),
        found: &[By::Bytes, By::Reading],
        ..RIGHT
    },
    Writer {
        name: "the same method for all",
        method: |_| "leximin",
        found: &[By::Bytes, By::Reading, By::Pairs],
        ..RIGHT
    },
    Writer {
        name: "states in the order of their lines",
        order: |lines| lines.sort(),
        found: &[By::Bytes, By::Reading, By::Pairs],
        ..RIGHT
    },
];

impl Writer {
    /// The copy of a register, unless reading refuses it.
    fn copy(&self, bytes: &[u8]) -> Result<Vec<u8>, Refusal> {
        let last = read(bytes)?.names.len() + 1;
        let text = std::str::from_utf8(bytes).expect("plain letters");
        let lines = text.split_inclusive('\n').enumerate();
        let mut lines: Vec<String> = lines
            .map(|(place, line)| self.line(line, place == last))
            .collect();
        (self.order)(&mut lines[1..last]);
        Ok(lines.concat().into_bytes())
    }

    fn line(&self, line: &str, closing: bool) -> String {
        let typed = line.trim_end_matches(['\r', '\n']);
        let end = (self.end)(&line[typed.len()..]);
        let fields: Vec<&str> = typed.split(',').collect();
        let number = self.number;
        match fields[..] {
            [word, total] if closing => format!("{word},{}{end}", (self.total)(total)),
            [name, population] => {
                format!("{},{}{end}", (self.state)(name), number(population))
            }
            [word, method, house, count] => {
                let (method, house, count) = ((self.method)(method), number(house), number(count));
                format!("{word},{method},{house},{count}{end}")
            }
            _ => unreachable!("a line of an accepted register"),
        }
    }

    /// Whether one register finds the writer in some way.
    fn is_found(&self, bytes: &[u8], by: By) -> bool {
        let copy = self.copy(bytes).expect("an accepted register");
        match by {
            By::Bytes => Ok(copy) != clean(bytes),
            By::Reading => reads_alike(&read(bytes).expect("accepted"), &read(&copy)).is_err(),
            By::Again => stays(&copy, &self.copy(&copy)).is_err(),
            By::Pairs => false,
        }
    }

    /// Whether a pair of registers finds the writer.
    fn is_found_by_pair(&self, first: &[u8], second: &[u8]) -> bool {
        let registers = [first, second].map(|bytes| read(bytes).expect("an accepted register"));
        let [copy, other] = [first, second].map(|bytes| self.copy(bytes).expect("the same"));
        equal_where_same([&registers[0], &registers[1]], [&copy, &other]).is_err()
    }
}

/// The registers of a case that are accepted.
fn accepted(case: Case) -> Vec<Vec<u8>> {
    let registers = match case {
        Case::Register { bytes, .. } => vec![bytes],
        Case::Copies { first, second } => vec![first, second],
        _ => Vec::new(),
    };
    let accepted = registers.into_iter();
    accepted.filter(|bytes| read(bytes).is_ok()).collect()
}

/// How often a writer is found by some cases, in each of the ways.
fn times_found(writer: &Writer, cases: &[Vec<Vec<u8>>]) -> [u64; WAYS.len()] {
    WAYS.map(|by| {
        let found = |registers: &[Vec<u8>]| match (by, registers) {
            (By::Pairs, [first, second]) => writer.is_found_by_pair(first, second),
            _ => registers.iter().any(|bytes| writer.is_found(bytes, by)),
        };
        cases.iter().filter(|registers| found(registers)).count() as u64
    })
}

#[test]
fn wrong_writers_of_clean_copies_would_be_found() {
    let inputs = Inputs::new(1);
    let fixed = 0..inputs.fixed();
    let seeded = inputs.fixed()..inputs.fixed() + 10_000;
    let cases = |numbers: std::ops::Range<u64>| -> Vec<Vec<Vec<u8>>> {
        numbers.map(|number| accepted(inputs.get(number))).collect()
    };
    let (fixed, seeded) = (cases(fixed), cases(seeded));
    assert_eq!(times_found(&RIGHT, &seeded), [0; WAYS.len()]);
    assert_eq!(times_found(&RIGHT, &fixed), [0; WAYS.len()]);
    for wrong in WRONG {
        let times = [times_found(&wrong, &fixed), times_found(&wrong, &seeded)];
        for (way, by) in WAYS.iter().enumerate() {
            let [fixed, seeded] = times.map(|times| times[way]);
            if wrong.found.contains(by) {
                assert!(fixed > 0 && seeded > 3, "{}, {by:?}: {times:?}", wrong.name);
            }
        }
    }
}

/// What comes of clean copies on the pairs among some inputs, all others left out.
fn pairs(cases: impl Iterator<Item = Case>) -> Counts {
    let mut counts = Counts::default();
    for case in cases {
        if let Case::Copies { .. } = case {
            check(&case, &mut counts).unwrap();
        }
    }
    counts
}

#[test]
fn every_run_has_pairs_with_equal_copies_and_with_others() {
    let inputs = Inputs::new(1);
    let counts = pairs((0..inputs.fixed()).map(|number| inputs.get(number)));
    assert!(counts.equal_copies > 30, "{}", counts.equal_copies);
    assert!(counts.other_copies > 200, "{}", counts.other_copies);
}

#[test]
fn seeded_pairs_have_equal_copies_and_others() {
    let inputs = Inputs::new(1);
    let numbers = inputs.fixed()..inputs.fixed() + 20_000;
    let counts = pairs(numbers.map(|number| inputs.get(number)));
    let [equal, other] = [counts.equal_copies, counts.other_copies];
    assert!(equal > 300 && other > 200, "{equal} {other}");
    // Some pairs are refused, and nothing is asked of those.
    let all: u64 = counts.inputs.iter().sum();
    assert!(all > equal + other + 20, "{all}");
    assert!(counts.copies > 2 * (equal + other));
}

/// The counts after a pair was run alone, as a line of text.
fn replayed(first: &str, second: &str) -> Counts {
    let case = Case::Copies {
        first: first.into(),
        second: second.into(),
    };
    let line = case.to_string();
    assert_eq!(Case::parse(&line), Some(case.clone()));
    let mut counts = Counts::default();
    check(&case, &mut counts).unwrap();
    counts
}

#[test]
fn where_one_register_is_refused_the_pair_is_not_asked() {
    const PLAIN: &str = "register,hill,20,1\nNorth,7\ntotal,7\n";
    const TYPED: &str = "register,hill,0020,1\r\nNorth,07\r\ntotal,7\n";
    const OTHER: &str = "register,hill,20,1\nnorth,7\ntotal,7\n";
    const REFUSED: &str = "register,hill,20,1\nNorth,7\ntotal,8\n";
    let asked = |first, second| {
        let counts = replayed(first, second);
        [counts.copies, counts.equal_copies, counts.other_copies]
    };
    assert_eq!(asked(PLAIN, TYPED), [2, 1, 0]);
    assert_eq!(asked(PLAIN, PLAIN), [2, 1, 0]);
    assert_eq!(asked(OTHER, TYPED), [2, 0, 1]);
    assert_eq!(asked(PLAIN, REFUSED), [1, 0, 0]);
    assert_eq!(asked(REFUSED, PLAIN), [1, 0, 0]);
    assert_eq!(asked(REFUSED, REFUSED), [0; 3]);
    assert_eq!(asked("", ""), [0; 3]);
    for line in ["copies 0a", "copies 0a 0", "copies 0a 0g", "copies - - -"] {
        assert_eq!(Case::parse(line), None, "{line}");
    }
}
