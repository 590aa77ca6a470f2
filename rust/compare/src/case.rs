//! One input for both desks, and the line of text from which it can be run again.

use reference::{Placing, STATES_LIMIT};
use std::fmt;

#[derive(Clone, Debug, PartialEq, Eq)]
pub enum Case {
    /// Reading, the name at a place, the listing in a buffer with some room, and the clean copy in
    /// buffers next to its own length.
    Register {
        room: usize,
        place: usize,
        bytes: Vec<u8>,
    },
    /// Allotting into a list with some room.
    Allot {
        method: u64,
        house: u64,
        room: usize,
        populations: Vec<u64>,
    },
    /// Opening, then the way to the house: by one seat at a time, in halts, and in one call.
    Walk { house: u64, populations: Vec<u64> },
    /// A placing, genuine or not, moved on by one number of seats after another.
    Moves {
        placing: Box<Placing>,
        asked: Vec<u64>,
    },
    /// The departure of one state.
    Departure {
        population: u64,
        seats: u64,
        total: u64,
        house: u64,
    },
    /// Allotting a house and one seat more to the same populations.
    Growth {
        method: u64,
        house: u64,
        populations: Vec<u64>,
    },
    /// Allotting one house by two polls of the same states.
    Polls {
        method: u64,
        house: u64,
        before: Vec<u64>,
        after: Vec<u64>,
    },
    /// The clean copies of two registers.
    Copies { first: Vec<u8>, second: Vec<u8> },
}

impl Case {
    pub const KINDS: [&'static str; 8] = [
        "register",
        "allot",
        "walk",
        "moves",
        "departure",
        "growth",
        "polls",
        "copies",
    ];

    /// The case's place among the kinds.
    pub fn kind(&self) -> usize {
        match self {
            Case::Register { .. } => 0,
            Case::Allot { .. } => 1,
            Case::Walk { .. } => 2,
            Case::Moves { .. } => 3,
            Case::Departure { .. } => 4,
            Case::Growth { .. } => 5,
            Case::Polls { .. } => 6,
            Case::Copies { .. } => 7,
        }
    }

    /// The case that a line of text stands for, if it stands for one.
    pub fn parse(text: &str) -> Option<Case> {
        let words: Vec<&str> = text.split_whitespace().collect();
        match words[..] {
            ["register", room, place, bytes] => Some(Case::Register {
                room: room.parse().ok()?,
                place: place.parse().ok()?,
                bytes: parse_bytes(bytes)?,
            }),
            ["allot", method, house, room, populations] => Some(Case::Allot {
                method: method.parse().ok()?,
                house: house.parse().ok()?,
                room: room.parse().ok()?,
                populations: parse_list(populations)?,
            }),
            ["walk", house, populations] => Some(Case::Walk {
                house: house.parse().ok()?,
                populations: parse_list(populations)?,
            }),
            ["moves", states, house, total, steps, populations, seats, asked] => {
                Some(Case::Moves {
                    placing: Box::new(Placing {
                        states: states.parse().ok()?,
                        house: house.parse().ok()?,
                        total: total.parse().ok()?,
                        steps: steps.parse().ok()?,
                        populations: filled(parse_list(populations)?)?,
                        seats: filled(parse_list(seats)?)?,
                    }),
                    asked: parse_list(asked)?,
                })
            }
            ["departure", population, seats, total, house] => Some(Case::Departure {
                population: population.parse().ok()?,
                seats: seats.parse().ok()?,
                total: total.parse().ok()?,
                house: house.parse().ok()?,
            }),
            ["growth", method, house, populations] => Some(Case::Growth {
                method: method.parse().ok()?,
                house: house.parse().ok()?,
                populations: parse_list(populations)?,
            }),
            ["polls", method, house, before, after] => Some(Case::Polls {
                method: method.parse().ok()?,
                house: house.parse().ok()?,
                before: parse_list(before)?,
                after: parse_list(after)?,
            }),
            ["copies", first, second] => Some(Case::Copies {
                first: parse_bytes(first)?,
                second: parse_bytes(second)?,
            }),
            _ => None,
        }
    }
}

impl fmt::Display for Case {
    fn fmt(&self, f: &mut fmt::Formatter) -> fmt::Result {
        write!(f, "{} ", Case::KINDS[self.kind()])?;
        match self {
            Case::Register { room, place, bytes } => {
                write!(f, "{room} {place} {}", show_bytes(bytes))
            }
            Case::Allot {
                method,
                house,
                room,
                populations,
            } => write!(f, "{method} {house} {room} {}", show_list(populations)),
            Case::Walk { house, populations } => write!(f, "{house} {}", show_list(populations)),
            Case::Moves { placing, asked } => write!(
                f,
                "{} {} {} {} {} {} {}",
                placing.states,
                placing.house,
                placing.total,
                placing.steps,
                show_list(without_last_zeros(&placing.populations)),
                show_list(without_last_zeros(&placing.seats)),
                show_list(asked),
            ),
            Case::Departure {
                population,
                seats,
                total,
                house,
            } => write!(f, "{population} {seats} {total} {house}"),
            Case::Growth {
                method,
                house,
                populations,
            } => write!(f, "{method} {house} {}", show_list(populations)),
            Case::Polls {
                method,
                house,
                before,
                after,
            } => {
                let (before, after) = (show_list(before), show_list(after));
                write!(f, "{method} {house} {before} {after}")
            }
            Case::Copies { first, second } => {
                write!(f, "{} {}", show_bytes(first), show_bytes(second))
            }
        }
    }
}

/// Bytes as two hexadecimal digits each, none as a dash.
fn show_bytes(bytes: &[u8]) -> String {
    if bytes.is_empty() {
        return "-".to_string();
    }
    bytes.iter().map(|b| format!("{b:02x}")).collect()
}

fn parse_bytes(text: &str) -> Option<Vec<u8>> {
    if text == "-" {
        return Some(Vec::new());
    }
    if !text.is_ascii() || !text.len().is_multiple_of(2) {
        return None;
    }
    let pair = |i| u8::from_str_radix(&text[i..i + 2], 16).ok();
    (0..text.len()).step_by(2).map(pair).collect()
}

/// Numbers parted by commas, none as a dash.
fn show_list(list: &[u64]) -> String {
    if list.is_empty() {
        return "-".to_string();
    }
    let words: Vec<String> = list.iter().map(u64::to_string).collect();
    words.join(",")
}

fn parse_list(text: &str) -> Option<Vec<u64>> {
    if text == "-" {
        return Some(Vec::new());
    }
    text.split(',').map(|word| word.parse().ok()).collect()
}

fn without_last_zeros(list: &[u64]) -> &[u64] {
    let length = list
        .iter()
        .rposition(|&x| x != 0)
        .map_or(0, |last| last + 1);
    &list[..length]
}

/// A list filled up with zeros, if it is not too long.
fn filled(mut list: Vec<u64>) -> Option<[u64; STATES_LIMIT]> {
    if list.len() > STATES_LIMIT {
        return None;
    }
    list.resize(STATES_LIMIT, 0);
    list.try_into().ok()
}
