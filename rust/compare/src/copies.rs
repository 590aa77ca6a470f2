//! Pairs of registers for their clean copies. Where two registers say the same the copies have to be
//! equal, and otherwise they must not be, so a pair here is one register typed in two ways, or two
//! that differ in one thing as little as can be.

use crate::damage::{self, Draft};
use crate::random::Random;
use crate::{problem, MOST_STATES};
use reference::{Method, HOUSE_LIMIT, SUM_LIMIT};

/// What a register says, however it is typed.
#[derive(Clone, Debug, PartialEq, Eq)]
pub struct Content {
    pub method: Method,
    pub house: u64,
    pub names: Vec<String>,
    pub populations: Vec<u64>,
}

impl Content {
    /// The register typed plainly.
    pub fn plain(&self) -> Draft {
        Draft::plain(
            self.method.name(),
            self.house,
            &self.names,
            &self.populations,
        )
    }

    /// The register typed with as many bytes as it can have.
    pub fn wide(&self) -> Draft {
        let mut draft = self.plain();
        draft.widen();
        draft
    }
}

/// Two registers: mostly one in two ways or two that differ in one thing, at times one and the same
/// with some byte harmed.
pub fn pair(random: &mut Random) -> (Vec<u8>, Vec<u8>) {
    let content = content(random);
    let first = typed(random, &content);
    let second = match random.below(10) {
        0 => {
            let mut bytes = first.clone();
            damage::harm_bytes(random, &mut bytes);
            bytes
        }
        1..=4 => {
            let other = altered(random, &content);
            typed(random, &other)
        }
        _ => typed(random, &content),
    };
    if random.once_in(2) {
        (first, second)
    } else {
        (second, first)
    }
}

/// What a sound register says, at times next to the limits of house and states or just past them.
/// The house may be below the states, which reading does not mind.
fn content(random: &mut Random) -> Content {
    let (n, house) = match random.below(40) {
        0 => (
            random.from(MOST_STATES - 1, MOST_STATES + 1),
            random.from(HOUSE_LIMIT - 1, HOUSE_LIMIT + 1),
        ),
        _ => {
            let bits = random.from(1, 15);
            let house = (1 + random.bits(bits)).min(HOUSE_LIMIT);
            (problem::states(random), house)
        }
    };
    let style = random.below(damage::STYLES);
    Content {
        method: random.pick(&Method::ALL),
        house,
        names: damage::names(style, n as usize),
        populations: problem::populations(random, n),
    }
}

/// A register typed in one way of many: plainly, with as many bytes as can be, or with zeros and
/// line ends by chance.
fn typed(random: &mut Random, content: &Content) -> Vec<u8> {
    let mut draft = content.plain();
    match random.below(8) {
        0 => (),
        1 => draft.widen(),
        _ => {
            let times = random.pick(&[1, 2, 6]);
            draft.retype(random, times);
        }
    }
    draft.bytes()
}

/// The same but for one thing, or not even that where chance picks what is there already.
fn altered(random: &mut Random, content: &Content) -> Content {
    let mut other = content.clone();
    let (i, j) = (random.place(&other.names), random.place(&other.names));
    match random.below(10) {
        0 => other.method = random.pick(&Method::ALL),
        1 => other.house = near_number(random, other.house, HOUSE_LIMIT),
        2..=4 => other.names[i] = near_name(random, &other.names[i]),
        5 => other.populations[i] = near_number(random, other.populations[i], SUM_LIMIT),
        6 => {
            other.names.swap(i, j);
            other.populations.swap(i, j);
        }
        7 => {
            if random.once_in(2) {
                other.names.swap(i, j);
            } else {
                other.populations.swap(i, j);
            }
        }
        8 => {
            let at = random.pick(&[i, other.names.len()]);
            other.names.insert(at, "One more".to_string());
            other.populations.insert(at, random.from(1, 9));
        }
        _ => {
            if other.names.len() > 1 {
                other.names.remove(i);
                other.populations.remove(i);
            }
        }
    }
    other
}

/// A number up to a limit with nearly the same digits: one more or less, or a zero more or a digit
/// less at its end.
fn near_number(random: &mut Random, number: u64, limit: u64) -> u64 {
    let near = match random.below(4) {
        0 => number + 1,
        1 => number - 1,
        2 => number * 10,
        _ => number / 10,
    };
    near.clamp(1, limit)
}

/// A name that one might take for another: with one letter in the other case, a blank or another
/// byte put in or taken out, or a zero in front of it or after it.
fn near_name(random: &mut Random, name: &str) -> String {
    let at = random.place(name.as_bytes());
    let mut near = name.to_string();
    match random.below(7) {
        0 => near = name.to_uppercase(),
        1 => near = name.to_lowercase(),
        2 => near.insert(at, ' '),
        3 => near.insert(at, random.pick(&['x', '0', '~'])),
        4 => near.insert(0, '0'),
        5 => near.push('0'),
        _ => {
            near.remove(at);
        }
    }
    // Neither an empty name nor one that is too long or has a blank at an end would be accepted.
    let accepted = (1..=32).contains(&near.len()) && near.trim() == near;
    if accepted {
        near
    } else {
        name.to_string()
    }
}

#[cfg(test)]
mod tests {
    use super::*;
    use reference::read;

    #[test]
    fn a_register_typed_in_any_way_says_the_same() {
        let mut ways = 0;
        for input in 0..400 {
            let random = &mut Random::new(1, input);
            let content = content(random);
            let (first, second) = (typed(random, &content), typed(random, &content));
            let registers = [read(&first), read(&second)];
            assert_eq!(registers[0], registers[1]);
            let [Ok(register), _] = registers else {
                // Past a limit of house or states.
                let past = content.house > HOUSE_LIMIT || content.names.len() as u64 > MOST_STATES;
                assert!(past, "{content:?}");
                continue;
            };
            assert_eq!(register.method, content.method);
            assert_eq!(register.house, content.house);
            assert_eq!(register.populations, content.populations);
            let names: Vec<&[u8]> = content.names.iter().map(|name| name.as_bytes()).collect();
            assert_eq!(register.names, names);
            ways += (first != second) as u64;
        }
        assert!(ways > 300, "{ways}");
    }

    #[test]
    fn most_altered_registers_are_accepted_and_say_something_else() {
        let mut others = 0;
        for input in 0..400 {
            let random = &mut Random::new(1, input);
            let content = content(random);
            let altered = altered(random, &content);
            let bytes = typed(random, &altered);
            others += (read(&bytes).is_ok() && altered != content) as u64;
        }
        assert!(others > 250, "{others}");
    }
}
