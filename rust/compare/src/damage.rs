//! Registers as text: sound ones in every accepted dress, and damage to lines, fields and bytes.

use crate::random::Random;
use crate::{problem, MOST_STATES};
use reference::{Method, HOUSE_LIMIT, SUM_LIMIT};

/// A register before it is written out: the fields of each line, and how each line ends.
#[derive(Clone)]
pub struct Draft {
    pub lines: Vec<Vec<Vec<u8>>>,
    pub ends: Vec<Vec<u8>>,
}

impl Draft {
    /// A sound register in plain dress.
    pub fn plain(method: &str, house: u64, names: &[String], populations: &[u64]) -> Draft {
        let number = |x: u64| x.to_string().into_bytes();
        let word = |text: &str| text.as_bytes().to_vec();
        let count = populations.len() as u64;
        let mut lines = vec![vec![
            word("register"),
            word(method),
            number(house),
            number(count),
        ]];
        for (name, &population) in names.iter().zip(populations) {
            lines.push(vec![word(name), number(population)]);
        }
        lines.push(vec![word("total"), number(populations.iter().sum())]);
        let ends = vec![word("\n"); lines.len()];
        Draft { lines, ends }
    }

    /// As many bytes as the same names and numbers can have: all digits, and CR LF everywhere.
    pub fn widen(&mut self) {
        self.ends.fill(b"\r\n".to_vec());
        for (line, field) in numbers(self) {
            let number = &mut self.lines[line][field];
            number.splice(0..0, vec![b'0'; 10 - number.len()]);
        }
    }

    /// The same names and numbers in another dress: once in so many times a line ends in CR LF, and
    /// as often a number has leading zeros, up to ten digits in all.
    pub fn retype(&mut self, random: &mut Random, times: u64) {
        for end in &mut self.ends {
            if random.once_in(times) {
                *end = b"\r\n".to_vec();
            }
        }
        for (line, field) in numbers(self) {
            if random.once_in(times) {
                lead_with_zeros(random, &mut self.lines[line][field]);
            }
        }
    }

    pub fn bytes(&self) -> Vec<u8> {
        let mut bytes = Vec::new();
        for (fields, end) in self.lines.iter().zip(&self.ends) {
            bytes.extend(fields.join(&b","[..]));
            bytes.extend(end);
        }
        bytes
    }
}

/// A sound register: any method, names of every accepted kind, either line end, leading zeros.
pub fn sound(random: &mut Random) -> Draft {
    let (mut populations, mut house) = problem::problem(random);
    if random.below(12) == 0 {
        house = random.from(1, house);
    }
    let style = random.below(5);
    let mut method = random.pick(&Method::ALL);
    if method == Method::Remainders && random.once_in(2) {
        (populations, house) = problem::equal_remainders(random);
    } else if method == Method::Quota && random.once_in(2) {
        (populations, house) = problem::few_sizes(random);
    } else if random.once_in(8) {
        (populations, house) = problem::nearly_whole(random);
    } else if random.once_in(8) {
        (method, populations, house) = problem::equal_quotients(random);
    }
    let mut draft = Draft::plain(
        method.name(),
        house,
        &names(style, populations.len()),
        &populations,
    );
    if random.once_in(20) {
        draft.widen();
        return draft;
    }
    if random.once_in(4) {
        let always = random.once_in(2);
        for end in &mut draft.ends {
            if always || random.once_in(2) {
                *end = b"\r\n".to_vec();
            }
        }
    }
    if random.once_in(4) {
        for place in numbers(&draft) {
            if random.once_in(2) {
                lead_with_zeros(random, &mut draft.lines[place.0][place.1]);
            }
        }
    }
    draft
}

/// Some zeros or none in front of a number, which has ten digits at most then.
fn lead_with_zeros(random: &mut Random, number: &mut Vec<u8>) {
    let zeros = random.below(11 - number.len() as u64) as usize;
    number.splice(0..0, vec![b'0'; zeros]);
}

/// The style of names that have 32 bytes each.
pub const LONG_NAMES: u64 = 2;
/// The number of styles; the last one is left to registers that are cleaned.
pub const STYLES: u64 = 6;

/// So many different names, in one of the styles.
pub fn names(style: u64, count: usize) -> Vec<String> {
    (0..count).map(|place| name(style, place)).collect()
}

/// The name of the state at a place.
fn name(style: u64, place: usize) -> String {
    match style {
        0 => format!("S{place}"),
        1 => format!("County of Saint {place}"),
        LONG_NAMES => format!("{place:~>32}"),
        3 => ["total", "register", "leximin", "0", "!", "~", "a", "A"]
            .get(place)
            .map_or_else(|| format!("{}", 1000 + place), |word| word.to_string()),
        4 => format!("{}{place}", "x".repeat(place % 29)),
        // Names that would be other names, or the same, if they lost their zeros.
        _ => format!("{}{}", "0".repeat(place % 5), place / 5),
    }
}

/// Where the numbers of a sound register stand: line and field.
fn numbers(draft: &Draft) -> Vec<(usize, usize)> {
    let mut places = vec![(0, 2), (0, 3)];
    places.extend((1..draft.lines.len()).map(|line| (line, 1)));
    places
}

/// A register that is sound but for its house or the number of its states, which is past the limit.
fn past_a_limit(random: &mut Random) -> Draft {
    let more = match random.below(3) {
        0 => random.bits(8),
        _ => 0,
    };
    let style = random.below(5);
    let (n, house) = match random.below(2) {
        0 => (MOST_STATES + 1 + more, HOUSE_LIMIT),
        _ => (problem::states(random), HOUSE_LIMIT + 1 + more),
    };
    let populations = problem::populations(random, n);
    let names = names(style, populations.len());
    let method = random.pick(&Method::ALL).name();
    Draft::plain(method, house, &names, &populations)
}

/// A register with some damage, or none.
pub fn register(random: &mut Random) -> Vec<u8> {
    if random.once_in(100) {
        return past_a_limit(random).bytes();
    }
    let mut draft = sound(random);
    match random.below(10) {
        0..=3 => return draft.bytes(),
        4..=6 => harm_draft(random, &mut draft),
        7 => {
            for _ in 0..random.from(2, 4) {
                harm_draft(random, &mut draft);
            }
        }
        _ => (),
    }
    let mut bytes = draft.bytes();
    if random.once_in(2) {
        for _ in 0..random.from(1, 2) {
            harm_bytes(random, &mut bytes);
        }
    }
    bytes
}

/// Damage to one line or field.
fn harm_draft(random: &mut Random, draft: &mut Draft) {
    if draft.lines.is_empty() {
        return;
    }
    // The head and the closing line are chosen as often as all states together.
    let line = match random.below(4) {
        0 => 0,
        1 => draft.lines.len() - 1,
        _ => random.place(&draft.lines),
    };
    let other = random.place(&draft.lines);
    match random.below(12) {
        0 => {
            draft.lines.remove(line);
            draft.ends.remove(line);
        }
        1 => {
            let copy = draft.lines[line].clone();
            draft.lines.insert(other, copy);
            draft.ends.insert(other, b"\n".to_vec());
        }
        2 => draft.lines.swap(line, other),
        3 => draft.ends[line] = random.pick(&["", "\r", "\r\r\n", "\n\r", "\n\n"]).into(),
        4 => {
            let field = random.from(0, draft.lines[line].len() as u64) as usize;
            draft.lines[line].insert(field, random.pick(&["", "1", "x"]).into());
        }
        5 => {
            draft.lines[line].pop();
        }
        6 => {
            // One name twice.
            if let Some(name) = draft.lines[other].first().cloned() {
                if let Some(field) = draft.lines[line].first_mut() {
                    *field = name;
                }
            }
        }
        _ => {
            if !draft.lines[line].is_empty() {
                let field = random.place(&draft.lines[line]);
                let text = &mut draft.lines[line][field];
                *text = harmed_field(random, text);
            }
        }
    }
}

/// Something else in the place of a field: a near miss of it, or a value at some limit.
fn harmed_field(random: &mut Random, field: &[u8]) -> Vec<u8> {
    const VALUES: [&str; 26] = [
        "",
        "0",
        "1",
        "00",
        "000000000",
        "0000000000",
        "00000000000",
        "00000000001",
        "9999999999",
        "99999999999",
        "18446744073709551617",
        "+5",
        "-5",
        "5.0",
        "5 ",
        " 5",
        "0x5",
        "total",
        "register",
        "LEXIMIN",
        "leximin",
        "quota",
        "quotas",
        "webster\t",
        "\u{7f}",
        "\u{e9}",
    ];
    let number = std::str::from_utf8(field)
        .ok()
        .and_then(|text| text.parse::<u64>().ok());
    match (random.below(12), number) {
        (0, Some(x)) => (x + 1).to_string().into_bytes(),
        (1, Some(x)) => x.saturating_sub(1).to_string().into_bytes(),
        (2, Some(x)) => format!("{x:010}").into_bytes(),
        (3, Some(x)) => format!("{x:011}").into_bytes(),
        (4, _) => vec![random.pick(b"x~ 0\r"); random.pick(&[1, 31, 32, 33, 40])],
        (5, _) => [field, random.pick(&[&b" "[..], b"\r", b"x", b"\t"])].concat(),
        (6, _) => [random.pick(&[&b" "[..], b"\r", b"x", b"0"]), field].concat(),
        (7, _) => {
            let limit = random.pick(&[HOUSE_LIMIT, MOST_STATES, SUM_LIMIT]);
            let zeros = random.pick(&["", "", "0"]);
            format!("{zeros}{}", limit + random.below(2)).into_bytes()
        }
        _ => random.pick(&VALUES).into(),
    }
}

/// Damage to single bytes: cut, changed, inserted, doubled, taken out.
pub fn harm_bytes(random: &mut Random, bytes: &mut Vec<u8>) {
    if bytes.is_empty() {
        return;
    }
    let at = random.place(bytes);
    let byte = match random.below(3) {
        0 => random.below(256) as u8,
        _ => random.pick(b",\n\r 019aAt~\x00\x1f\x7f\x80\xff"),
    };
    match random.below(6) {
        0 => bytes.truncate(at),
        1 => bytes[at] = byte,
        2 => bytes.insert(at, byte),
        3 => bytes.insert(at, bytes[at]),
        4 => bytes.push(byte),
        _ => {
            bytes.remove(at);
        }
    }
}
