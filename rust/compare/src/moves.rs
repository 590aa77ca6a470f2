//! Moving a placing in place. A mover is held to the plain desk: they have to agree in every answer
//! and in the whole placing. It is held to a law by itself, too: two moves leave what one move by their
//! sum leaves. The mover is the library, or in the tests a wrong one.

use crate::check::{check_search, junk_number, same, Counts, GUARD};
use crate::random::Random;
use desk::ffi;
use reference::{way, Placing, Refusal};

/// Moves a lent placing on by so many seats, as `desk_move` does.
pub type Mover = fn(&mut ffi::Placing, u64) -> ffi::Moved;

/// The library's mover.
pub fn library(placing: &mut ffi::Placing, seats: u64) -> ffi::Moved {
    // SAFETY: the placing is lent for this call alone.
    unsafe { ffi::desk_move(placing, seats) }
}

/// A placing in the form that the C interface has.
pub fn in_c(placing: &Placing) -> ffi::Placing {
    ffi::Placing {
        states: placing.states,
        house: placing.house,
        total: placing.total,
        steps: placing.steps,
        populations: placing.populations,
        seats: placing.seats,
    }
}

/// What is handed back for a move, or for one that is refused.
pub fn moved(answer: Result<u64, Refusal>) -> ffi::Moved {
    match answer {
        Ok(moved) => ffi::Moved { refusal: 0, moved },
        Err(refusal) => ffi::Moved {
            refusal: refusal.number,
            moved: 0,
        },
    }
}

/// A placing where its owner keeps it, between numbers that a mover must not touch.
#[repr(C)]
#[derive(Debug, PartialEq, Eq)]
struct Owned {
    before: [u64; GUARD],
    placing: ffi::Placing,
    after: [u64; GUARD],
}

impl Owned {
    fn new(placing: &Placing) -> Owned {
        Owned {
            before: std::array::from_fn(junk_number),
            placing: in_c(placing),
            after: std::array::from_fn(|i| junk_number(GUARD + i)),
        }
    }

    /// Lends the placing to be moved: the answer, and the placing afterwards, have to be as expected.
    fn check(
        &mut self,
        mover: Mover,
        seats: u64,
        answer: Result<u64, Refusal>,
        next: &Placing,
        counts: &mut Counts,
    ) -> Result<(), String> {
        let expected = moved(answer);
        let found = mover(&mut self.placing, seats);
        counts.call(expected.refusal);
        same(&format!("desk_move by {seats}"), &expected, &found)?;
        let what = format!("placing after desk_move by {seats}, guards included");
        same(&what, &Owned::new(next), self)
    }
}

/// A placing that may be anything, moved on by one number after another: after each of them both
/// desks have the same.
pub fn check_each(
    mover: Mover,
    placing: &Placing,
    asked: &[u64],
    counts: &mut Counts,
) -> Result<(), String> {
    let mut owned = Owned::new(placing);
    let mut plain = *placing;
    for &seats in asked {
        let answer = plain.advance(seats);
        owned.check(mover, seats, answer, &plain, counts)?;
        if answer.is_ok() {
            check_leximin(&plain, counts)?;
        }
    }
    Ok(())
}

/// The law, for each two neighbours in a list of numbers whose sum is a number too: by the one and
/// then by the other the mover leaves the same placing, and moves as many in all, as by their sum,
/// and it refuses all three or none. The plain desk is not asked.
pub fn check_sums(
    mover: Mover,
    placing: &Placing,
    asked: &[u64],
    counts: &mut Counts,
) -> Result<(), String> {
    let mut start = in_c(placing);
    for pair in asked.windows(2) {
        let mut call = |placing: &mut ffi::Placing, seats| {
            let answer = mover(placing, seats);
            counts.call(answer.refusal);
            answer
        };
        let (j, k) = (pair[0], pair[1]);
        let mut halt = start;
        let first = call(&mut halt, j);
        if let Some(sum) = j.checked_add(k) {
            let (mut end, mut at_once) = (halt, start);
            let second = call(&mut end, k);
            let one = call(&mut at_once, sum);
            let what = |of: &str| format!("{of}, by {sum} against by {j} and then by {k}");
            let refusals = [first.refusal, second.refusal];
            same(&what("refusals"), &[one.refusal; 2], &refusals)?;
            let in_all = first.moved as u128 + second.moved as u128;
            same(&what("moved in all"), &(one.moved as u128), &in_all)?;
            same(&what("placing"), &at_once, &end)?;
            counts.sums += 1;
            counts.halts += (first.moved > 0 && second.moved > 0) as u64;
        }
        start = halt;
    }
    Ok(())
}

/// The way from an opening to the house, by one seat at a time, in halts of chance, and in one call;
/// at the house nothing moves. The reference goes the way once, since its own move replays a placing
/// from its opening each time; that move is asked to go the whole way alone.
pub fn check_way(mover: Mover, opened: &Placing, counts: &mut Counts) -> Result<(), String> {
    let house = opened.house;
    let gap = opened.total.abs_diff(house);
    let populations = &opened.populations[..opened.states as usize];
    // The same halts whenever the case is run again.
    let random = &mut Random::new(house, populations.iter().sum());
    let mut by_one = Owned::new(opened);
    let mut halting = Owned::new(opened);
    let mut to_halt = random.from(1, gap + 1);
    let mut placing = *opened;
    check_leximin(&placing, counts)?;
    for next in way(populations, house).expect("it was opened").skip(1) {
        placing = next;
        check_leximin(&placing, counts)?;
        by_one.check(mover, 1, Ok(1), &placing, counts)?;
        if placing.steps == halting.placing.steps + to_halt {
            halting.check(mover, to_halt, Ok(to_halt), &placing, counts)?;
            to_halt = random.from(1, gap - placing.steps + 1);
        }
    }
    same("total at the end of the way", &house, &placing.total)?;
    same("steps at the end of the way", &gap, &placing.steps)?;

    // The last halt was to be past the house.
    let left = gap - halting.placing.steps;
    halting.check(mover, to_halt, Ok(left), &placing, counts)?;
    let mut at_once = Owned::new(opened);
    at_once.check(mover, u64::MAX, Ok(gap), &placing, counts)?;
    for seats in [0, 1, u64::MAX] {
        by_one.check(mover, seats, Ok(0), &placing, counts)?;
    }
    let mut plain = *opened;
    same("the plain desk's move", &Ok(gap), &plain.advance(u64::MAX))?;
    same("the plain desk's placing", &placing, &plain)
}

/// For a small problem, the placing's seats have to be those that the search finds for its total.
fn check_leximin(placing: &Placing, counts: &mut Counts) -> Result<(), String> {
    let n = placing.states as usize;
    let (populations, seats) = (&placing.populations[..n], &placing.seats[..n]);
    check_search(populations, placing.house, placing.total, seats, counts)
}
