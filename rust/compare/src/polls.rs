//! Two polls of the same states. Where one state loses seats and another gains, the first has to
//! have grown by the smaller factor, so many of the polls here are next to that: factors that are
//! equal or nearly so, counts that differ by a voter, and seats that states want by equal quotients.

use crate::problem;
use crate::random::Random;
use crate::seeded::common_divisor;
use reference::SUM_LIMIT;

/// The largest factor by which counts grow, but for those that fill the sum.
const MOST: u64 = 4;

/// Two polls, of which one is the list that is given or a part of it; the list and the house are
/// sound.
pub fn polls(random: &mut Random, list: &[u64], house: u64) -> (Vec<u64>, Vec<u64>) {
    let before = with_room(random, list);
    let after = match random.below(12) {
        0..=4 => by_one_factor(random, &before, house),
        5 | 6 => by_two_factors(random, &before),
        7 => two_alike(random, &before),
        8 => exchanged(random, &before),
        9 => by_per_cents(random, &before),
        10 => before.iter().rev().copied().collect(),
        _ => problem::populations(random, before.len() as u64),
    };
    if random.once_in(2) {
        (before, after)
    } else {
        (after, before)
    }
}

/// The list, or where its sum is too large for its counts to grow, the same part of each, rounded;
/// at times it is left as it is.
fn with_room(random: &mut Random, list: &[u64]) -> Vec<u64> {
    if random.once_in(8) || most_factor(list) >= MOST {
        return list.to_vec();
    }
    let part = random.from(2 * MOST, 20 * MOST);
    list.iter().map(|p| (p / part).max(1)).collect()
}

/// The largest factor by which all counts can grow; 1 if they cannot.
fn most_factor(list: &[u64]) -> u64 {
    SUM_LIMIT / list.iter().sum::<u64>().clamp(1, SUM_LIMIT)
}

/// All counts by one factor, or all as they are, but for a few states: these have a voter more or
/// fewer, or as many as are worth up to two seats, or up to as many as they had.
fn by_one_factor(random: &mut Random, list: &[u64], house: u64) -> Vec<u64> {
    let most = most_factor(list);
    let factor = match random.below(6) {
        0 | 1 => 1,
        2 => most,
        _ => random.from(1, most.min(MOST)),
    };
    let mut after: Vec<u64> = list.iter().map(|p| p * factor).collect();
    let seat = after.iter().sum::<u64>() / house + 1;
    for _ in 0..random.from(1, 3) {
        let at = random.place(&after);
        let voters = match random.below(5) {
            0 => random.from(1, 2 * seat),
            1 => random.from(1, after[at]),
            _ => 1,
        };
        after[at] = if random.once_in(2) {
            after[at] + voters
        } else {
            after[at].saturating_sub(voters).max(1)
        };
    }
    after
}

/// Each count by one of two factors, which may be the same, so that many states have grown alike.
fn by_two_factors(random: &mut Random, list: &[u64]) -> Vec<u64> {
    let most = most_factor(list).min(MOST);
    let factors = [random.from(1, most), random.from(1, most)];
    list.iter().map(|p| p * random.pick(&factors)).collect()
}

/// Two counts by the same factor, at times but for a voter, among others of chance.
fn two_alike(random: &mut Random, list: &[u64]) -> Vec<u64> {
    let mut after = by_per_cents(random, list);
    let (i, j) = (random.place(list), random.place(list));
    // The factor is so many over the common divisor, which leaves both whole.
    let common = common_divisor(list[i], list[j]);
    let over = random.from(1, 2 * common);
    after[i] = list[i] / common * over;
    after[j] = list[j] / common * over + random.pick(&[0, 0, 1]);
    after
}

/// Some pairs of states with their counts exchanged.
fn exchanged(random: &mut Random, list: &[u64]) -> Vec<u64> {
    let mut after = list.to_vec();
    for _ in 0..random.from(1, 3) {
        let (i, j) = (random.place(list), random.place(list));
        after.swap(i, j);
    }
    after
}

/// Each count up to a quarter larger or smaller.
fn by_per_cents(random: &mut Random, list: &[u64]) -> Vec<u64> {
    let mut grown = |p: &u64| (p * random.from(75, 125) / 100).max(1);
    list.iter().map(&mut grown).collect()
}
