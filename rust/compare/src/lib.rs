//! The proved desk against the plain reference: seeded inputs are given to both through the C
//! interface, and every number, list, lent buffer and lent placing that comes back has to agree. The
//! seats are held to the laws of growth besides, and moves and clean copies to their own laws.

mod case;
mod check;
pub mod clean;
mod copies;
mod damage;
mod fixed;
pub mod growth;
pub mod moves;
mod placing;
mod polls;
mod problem;
mod random;
mod seeded;

pub use case::Case;
pub use check::{check, Counts, Outcomes};
pub use fixed::fixed;
pub use seeded::seeded;

use reference::Method;

/// The most states, as a number to count with.
const MOST_STATES: u64 = reference::STATES_LIMIT as u64;
/// The number of methods, which is the first number that stands for none.
const METHODS: u64 = Method::ALL.len() as u64;
/// The methods that meet the first claims by a quotient p / d(a).
const DIVISOR_METHODS: [Method; 5] = [
    Method::Adams,
    Method::Dean,
    Method::Hill,
    Method::Webster,
    Method::Jefferson,
];

/// The inputs of a run: the fixed ones first, then as many seeded ones as are asked for.
pub struct Inputs {
    seed: u64,
    fixed: Vec<Case>,
}

impl Inputs {
    pub fn new(seed: u64) -> Inputs {
        Inputs {
            seed,
            fixed: fixed(seed),
        }
    }

    /// The input with a given number, counted from 0.
    pub fn get(&self, number: u64) -> Case {
        match self.fixed.get(number as usize) {
            Some(case) => case.clone(),
            None => seeded(self.seed, number),
        }
    }

    /// How many of the inputs are fixed.
    pub fn fixed(&self) -> u64 {
        self.fixed.len() as u64
    }
}
