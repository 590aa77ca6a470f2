//! Leximin: the start, the steps from it to the house, the placing that shows them, and
//! for small problems a search through every allotment.

use crate::{check_problem, refusal, Refusal, STATES_LIMIT};
use std::cmp::{Ordering, Reverse};
use std::iter::successors;

/// The size of a departure, |pH − aP| / (aP).
#[derive(Clone, Copy, Debug)]
struct Size {
    over: u128,
    under: u128,
}

impl Ord for Size {
    fn cmp(&self, other: &Self) -> Ordering {
        (self.over * other.under).cmp(&(other.over * self.under))
    }
}

impl PartialOrd for Size {
    fn partial_cmp(&self, other: &Self) -> Option<Ordering> {
        Some(self.cmp(other))
    }
}

impl PartialEq for Size {
    fn eq(&self, other: &Self) -> bool {
        self.cmp(other) == Ordering::Equal
    }
}

impl Eq for Size {}

/// Sound populations and a house for them: what every size is measured against.
struct Problem<'a> {
    populations: &'a [u64],
    sum: u64,
    house: u64,
}

impl<'a> Problem<'a> {
    fn new(populations: &'a [u64], house: u64) -> Problem<'a> {
        let sum = populations.iter().sum();
        Problem {
            populations,
            sum,
            house,
        }
    }

    /// The size of state i with a seats.
    fn size(&self, i: usize, a: u64) -> Size {
        let share = self.populations[i] as u128 * self.house as u128;
        let seated = a as u128 * self.sum as u128;
        Size {
            over: share.abs_diff(seated),
            under: seated,
        }
    }

    /// The seats of state i, at least 1, whose size is least, the fewer of two equally near.
    /// Sizes fall up to the share pH / P and rise after it, so it is one of the two beside it.
    fn nearest(&self, i: usize) -> u64 {
        let below = self.populations[i] * self.house / self.sum;
        if below == 0 || self.size(i, below + 1) < self.size(i, below) {
            below + 1
        } else {
            below
        }
    }

    fn start(&self) -> Vec<u64> {
        (0..self.populations.len())
            .map(|i| self.nearest(i))
            .collect()
    }

    /// The state that takes the next seat: the first whose size does not rise; otherwise least
    /// new size, then larger present size, then the earlier state.
    fn gainer(&self, seats: &[u64]) -> usize {
        let moves =
            || (0..seats.len()).map(|i| (self.size(i, seats[i] + 1), self.size(i, seats[i]), i));
        let without_rise = moves().find(|(new, present, _)| new <= present);
        let (_, _, i) = without_rise.unwrap_or_else(|| {
            moves()
                .min_by_key(|&(new, present, i)| (new, Reverse(present), i))
                .expect("there is a state")
        });
        i
    }

    /// The state that gives up a seat, one of those with more than one: least new size, then
    /// larger present size, then the later state.
    fn giver(&self, seats: &[u64]) -> usize {
        (0..seats.len())
            .filter(|&i| seats[i] > 1)
            .min_by_key(|&i| {
                let (new, present) = (self.size(i, seats[i] - 1), self.size(i, seats[i]));
                (new, Reverse(present), Reverse(i))
            })
            .expect("a total above the house has a state with a second seat")
    }

    /// Moves one seat towards the house from a total that is not the house.
    fn step(&self, seats: &mut [u64], total: u64) -> u64 {
        if total < self.house {
            seats[self.gainer(seats)] += 1;
            total + 1
        } else {
            seats[self.giver(seats)] -= 1;
            total - 1
        }
    }
}

/// The leximin seats of sound populations for a house not below n, and the steps to them.
pub(crate) fn allotted(populations: &[u64], house: u64) -> (Vec<u64>, u64) {
    let problem = Problem::new(populations, house);
    let mut seats = problem.start();
    let mut total = seats.iter().sum();
    let mut steps = 0;
    while total != house {
        total = problem.step(&mut seats, total);
        steps += 1;
    }
    (seats, steps)
}

/// The leximin work so far: populations, house, seats, their total, and the steps since
/// opening. The lists hold 0 past the states.
#[derive(Clone, Copy, Debug, PartialEq, Eq)]
pub struct Placing {
    pub states: u64,
    pub house: u64,
    pub total: u64,
    pub steps: u64,
    pub populations: [u64; STATES_LIMIT],
    pub seats: [u64; STATES_LIMIT],
}

/// Opens a placing at the start.
pub fn open(populations: &[u64], house: u64) -> Result<Placing, Refusal> {
    check_problem(populations, house)?;
    let n = populations.len();
    if house < n as u64 {
        return Err(refusal(15));
    }
    let start = Problem::new(populations, house).start();
    let mut placing = Placing {
        states: n as u64,
        house,
        total: start.iter().sum(),
        steps: 0,
        populations: [0; STATES_LIMIT],
        seats: [0; STATES_LIMIT],
    };
    placing.populations[..n].copy_from_slice(populations);
    placing.seats[..n].copy_from_slice(&start);
    Ok(placing)
}

/// Every placing on the way from the opening to the house, both included.
pub fn way(populations: &[u64], house: u64) -> Result<impl Iterator<Item = Placing>, Refusal> {
    let opened = open(populations, house)?;
    Ok(successors(Some(opened), |placing| {
        let mut next = *placing;
        (next.total != next.house).then(|| {
            next.move_one_seat();
            next
        })
    }))
}

impl Placing {
    /// Moves on towards the house by so many seats, or by those that are left if they are fewer, and
    /// hands back how many were moved. Refused, the placing keeps its contents.
    pub fn advance(&mut self, seats: u64) -> Result<u64, Refusal> {
        if !self.is_genuine() {
            return Err(refusal(21));
        }
        let mut moved = 0;
        while moved < seats && self.total != self.house {
            self.move_one_seat();
            moved += 1;
        }
        Ok(moved)
    }

    /// Whether opening and as many steps as it claims give just this placing.
    pub fn is_genuine(&self) -> bool {
        if self.states > STATES_LIMIT as u64 {
            return false;
        }
        let Ok(mut replay) = open(&self.populations[..self.states as usize], self.house) else {
            return false;
        };
        if self.steps > replay.total.abs_diff(self.house) {
            return false;
        }
        for _ in 0..self.steps {
            replay.move_one_seat();
        }
        replay == *self
    }

    fn move_one_seat(&mut self) {
        let n = self.states as usize;
        let problem = Problem::new(&self.populations[..n], self.house);
        self.total = problem.step(&mut self.seats[..n], self.total);
        self.steps += 1;
    }
}

/// The leximin allotment of a total by its definition: every allotment of it is looked at, more
/// seats to the first states coming first, and the first with the least list is kept.
/// None where the total is below the number of states. For small problems only.
pub fn search(populations: &[u64], house: u64, total: u64) -> Option<Vec<u64>> {
    let problem = Problem::new(populations, house);
    let mut best: Option<(Vec<Size>, Vec<u64>)> = None;
    each_allotment(populations.len(), total, &mut Vec::new(), &mut |seats| {
        let mut list: Vec<Size> = (0..seats.len())
            .map(|i| problem.size(i, seats[i]))
            .collect();
        list.sort_by(|a, b| b.cmp(a));
        if best.as_ref().is_none_or(|(least, _)| list < *least) {
            best = Some((list, seats.to_vec()));
        }
    });
    best.map(|(_, seats)| seats)
}

/// Hands over every list of n seats, each at least 1, with a given total, that begins with the
/// seats already chosen; larger ones at the first difference come first.
fn each_allotment(
    states: usize,
    total: u64,
    chosen: &mut Vec<u64>,
    visit: &mut impl FnMut(&[u64]),
) {
    let left = (states - chosen.len()) as u64;
    if left == 0 {
        if total == 0 {
            visit(chosen);
        }
        return;
    }
    for a in (1..=(total + 1).saturating_sub(left)).rev() {
        chosen.push(a);
        each_allotment(states, total - a, chosen, visit);
        chosen.pop();
    }
}
