//! One case given to both desks. The library's answers come through the C interface, with guards
//! around everything it is lent; the reference's are put into the same form. Where a case is about
//! growth, the library's seats are held to a law too, and so are its moves and every clean copy that
//! it writes.

use crate::growth::{self, Poll};
use crate::moves::{self, in_c};
use crate::{clean, Case};
use desk::ffi;
use reference::{Mark, Method, Refusal, Register, STATES_LIMIT};
use std::fmt::Debug;

/// What a run has seen: inputs by kind, calls to the library, answers by refusal number (0 where
/// none was given), placings and allotments compared with the search, and what came of the laws of
/// moves, of growth and of clean copies.
#[derive(Clone, Debug)]
pub struct Counts {
    pub inputs: [u64; Case::KINDS.len()],
    pub calls: u64,
    pub refusals: [u64; 64],
    pub searched: u64,
    /// Pairs of moves that left what one move by their sum leaves.
    pub sums: u64,
    /// Of these, pairs in which either move moved seats; otherwise there is little to break.
    pub halts: u64,
    pub one_seat_more: Outcomes,
    pub two_polls: Outcomes,
    /// Pairs of polls in which seats moved from some states to others, under the methods that keep
    /// the law; where none moves, nothing can break it.
    pub moved: u64,
    /// Clean copies that were read and cleaned again.
    pub copies: u64,
    /// Pairs of accepted registers that say the same, and whose clean copies are equal.
    pub equal_copies: u64,
    /// Pairs of accepted registers that do not say the same, and whose clean copies are not equal.
    pub other_copies: u64,
}

/// What came of a law, by method: how often it was held by those that keep it, and how often it was
/// broken by those that are excepted from it.
#[derive(Clone, Copy, Debug, Default)]
pub struct Outcomes {
    pub held: [u64; Method::ALL.len()],
    pub broken: [u64; Method::ALL.len()],
}

impl Default for Counts {
    fn default() -> Counts {
        Counts {
            inputs: [0; Case::KINDS.len()],
            calls: 0,
            refusals: [0; 64],
            searched: 0,
            sums: 0,
            halts: 0,
            one_seat_more: Outcomes::default(),
            two_polls: Outcomes::default(),
            moved: 0,
            copies: 0,
            equal_copies: 0,
            other_copies: 0,
        }
    }
}

impl Counts {
    pub fn add(&mut self, other: &Counts) {
        add_each(&mut self.inputs, &other.inputs);
        add_each(&mut self.refusals, &other.refusals);
        self.calls += other.calls;
        self.searched += other.searched;
        self.sums += other.sums;
        self.halts += other.halts;
        self.one_seat_more.add(&other.one_seat_more);
        self.two_polls.add(&other.two_polls);
        self.moved += other.moved;
        self.copies += other.copies;
        self.equal_copies += other.equal_copies;
        self.other_copies += other.other_copies;
    }

    pub(crate) fn call(&mut self, refusal: u64) {
        self.calls += 1;
        self.refusals[refusal as usize] += 1;
    }
}

impl Outcomes {
    fn add(&mut self, other: &Outcomes) {
        add_each(&mut self.held, &other.held);
        add_each(&mut self.broken, &other.broken);
    }

    /// Takes what came of the law once. Under a method that keeps it, that it does not hold is an
    /// error.
    fn take(
        &mut self,
        method: Method,
        keep: &[Method],
        outcome: Result<(), String>,
    ) -> Result<(), String> {
        if keep.contains(&method) {
            outcome?;
            self.held[method as usize] += 1;
        } else if outcome.is_err() {
            self.broken[method as usize] += 1;
        }
        Ok(())
    }
}

fn add_each(mine: &mut [u64], more: &[u64]) {
    for (mine, more) in mine.iter_mut().zip(more) {
        *mine += more;
    }
}

/// Compares the two desks on one case; an error says what differs.
pub fn check(case: &Case, counts: &mut Counts) -> Result<(), String> {
    counts.inputs[case.kind()] += 1;
    match case {
        Case::Register { room, place, bytes } => {
            check_read(bytes, counts)?;
            check_name(bytes, *place, counts)?;
            check_listing(bytes, *room, counts)?;
            check_clean(bytes, counts).map(|_| ())
        }
        Case::Allot {
            method,
            house,
            room,
            populations,
        } => check_allot(*method, *house, populations, *room, counts).map(|_| ()),
        Case::Walk { house, populations } => check_walk(populations, *house, counts),
        Case::Moves { placing, asked } => {
            moves::check_each(moves::library, placing, asked, counts)?;
            moves::check_sums(moves::library, placing, asked, counts)
        }
        &Case::Departure {
            population,
            seats,
            total,
            house,
        } => check_departure(population, seats, total, house, counts),
        Case::Growth {
            method,
            house,
            populations,
        } => check_growth(*method, *house, populations, counts),
        Case::Polls {
            method,
            house,
            before,
            after,
        } => check_polls(*method, *house, before, after, counts),
        Case::Copies { first, second } => check_copies(first, second, counts),
    }
}

// ---- Guards

/// A lent slice in the middle of a larger one, with known contents everywhere.
struct Lent<T> {
    whole: Vec<T>,
    length: usize,
}

pub(crate) const GUARD: usize = 32;

impl<T: Copy + PartialEq + Debug> Lent<T> {
    /// A list to be read, between guards.
    fn holding(list: &[T], guard: &[T; GUARD]) -> Lent<T> {
        Lent {
            whole: [guard, list, guard].concat(),
            length: list.len(),
        }
    }

    /// A list to be written, filled with what it must not lose.
    fn to_fill(length: usize, content: impl Fn(usize) -> T) -> Lent<T> {
        Lent {
            whole: (0..length + 2 * GUARD).map(content).collect(),
            length,
        }
    }

    fn middle(&mut self) -> &mut [T] {
        &mut self.whole[GUARD..GUARD + self.length]
    }

    /// A pointer from which a stray write or read stays within the guards.
    fn pointer(&mut self) -> *mut T {
        self.whole[GUARD..].as_mut_ptr()
    }
}

impl Lent<u8> {
    /// Bytes to be written, filled with what they must not lose: the same ones over and over, which
    /// are there quickly.
    fn bytes_to_fill(length: usize) -> Lent<u8> {
        let filled = length + 2 * GUARD;
        let mut whole = JUNK_BYTES.repeat(filled.div_ceil(JUNK_BYTES.len()));
        whole.truncate(filled);
        Lent { whole, length }
    }
}

/// Around a register: an end of line and what could go on after it, to be seen if read.
const BYTES_GUARD: [u8; GUARD] = *b"\ntotal,1\n0,1\ntotal,2\nregister,\r\n";
/// Around populations: numbers that would change an allotment.
const NUMBERS_GUARD: [u64; GUARD] = [3; GUARD];

/// Each byte once, in no order.
const JUNK_BYTES: [u8; 256] = {
    let mut bytes = [0; 256];
    let mut i = 0;
    while i < bytes.len() {
        bytes[i] = (i as u8).wrapping_mul(37) ^ 0xA5;
        i += 1;
    }
    bytes
};

pub(crate) fn junk_number(i: usize) -> u64 {
    (i as u64 + 1).wrapping_mul(0x9E37_79B9_7F4A_7C15)
}

pub(crate) fn same<T: PartialEq + Debug>(
    what: &str,
    expected: &T,
    found: &T,
) -> Result<(), String> {
    if expected == found {
        return Ok(());
    }
    let (expected, found) = (format!("{expected:?}"), format!("{found:?}"));
    let alike = expected.bytes().zip(found.bytes());
    let first = alike.take_while(|(a, b)| a == b).count();
    let about = |text: &str| -> String {
        let from = first.saturating_sub(200);
        text.chars().skip(from).take(400).collect()
    };
    Err(format!(
        "{what}\n  expected {}\n  found    {}",
        about(&expected),
        about(&found)
    ))
}

/// Texts are compared as bytes; where they differ they are shown as text if that shows it.
fn same_text(what: &str, expected: &[u8], found: &[u8]) -> Result<(), String> {
    if expected == found {
        return Ok(());
    }
    let text = String::from_utf8_lossy;
    same(what, &text(expected), &text(found))?;
    same(what, &expected, &found)
}

// ---- Registers

fn check_read(bytes: &[u8], counts: &mut Counts) -> Result<(), String> {
    let answer = reference::read(bytes);
    let expected = reading(&answer);
    let mut lent = Lent::holding(bytes, &BYTES_GUARD);
    let before = lent.whole.clone();
    // SAFETY: the pointer has as many bytes after it as the length says.
    let found = unsafe { ffi::desk_read(lent.pointer(), bytes.len()) };
    counts.call(expected.refusal);
    same("desk_read", &expected, &found)?;
    same("register after desk_read", &before, &lent.whole)
}

fn reading(answer: &Result<Register, Refusal>) -> ffi::Reading {
    let mut reading = ffi::Reading {
        refusal: 0,
        line: 0,
        method: 0,
        house: 0,
        states: 0,
        total: 0,
        populations: [0; STATES_LIMIT],
    };
    match answer {
        Ok(register) => {
            let n = register.populations.len();
            reading.method = register.method as u64;
            reading.house = register.house;
            reading.states = n as u64;
            reading.total = register.total;
            reading.populations[..n].copy_from_slice(&register.populations);
        }
        Err(refusal) => {
            reading.refusal = refusal.number;
            reading.line = refusal.line;
        }
    }
    reading
}

fn check_name(bytes: &[u8], place: usize, counts: &mut Counts) -> Result<(), String> {
    let expected = match reference::name(bytes, place) {
        Ok(name) => ffi::Part {
            refusal: 0,
            line: 0,
            start: (name.as_ptr() as usize - bytes.as_ptr() as usize) as u64,
            length: name.len() as u64,
        },
        Err(refusal) => ffi::Part {
            refusal: refusal.number,
            line: refusal.line,
            start: 0,
            length: 0,
        },
    };
    let mut lent = Lent::holding(bytes, &BYTES_GUARD);
    let before = lent.whole.clone();
    // SAFETY: the pointer has as many bytes after it as the length says.
    let found = unsafe { ffi::desk_name(lent.pointer(), bytes.len(), place) };
    counts.call(expected.refusal);
    same("desk_name", &expected, &found)?;
    same("register after desk_name", &before, &lent.whole)
}

fn check_listing(bytes: &[u8], room: usize, counts: &mut Counts) -> Result<(), String> {
    let mut expected = Lent::bytes_to_fill(room);
    let answer = written(reference::write_listing(bytes, expected.middle()));
    let mut lent = Lent::holding(bytes, &BYTES_GUARD);
    let before = lent.whole.clone();
    let mut out = Lent::bytes_to_fill(room);
    // SAFETY: each pointer has as many bytes after it as its length says.
    let found = unsafe { ffi::desk_listing(lent.pointer(), bytes.len(), out.pointer(), room) };
    counts.call(answer.refusal);
    same("desk_listing", &answer, &found)?;
    same("register after desk_listing", &before, &lent.whole)?;
    let what = "buffer after desk_listing, guards included";
    same_text(what, &expected.whole, &out.whole)
}

/// What is handed back for a text that was written, or refused.
fn written(answer: Result<usize, Refusal>) -> ffi::Written {
    match answer {
        Ok(length) => ffi::Written {
            refusal: 0,
            line: 0,
            length: length as u64,
        },
        Err(refusal) => ffi::Written {
            refusal: refusal.number,
            line: refusal.line,
            length: 0,
        },
    }
}

// ---- Clean copies

/// So many bytes more than a register has are room for its clean copy and some to spare.
const SPARE: usize = 100;

/// The clean copy of a register in buffers of several lengths: none, a byte too short, just long
/// enough, a byte longer and much longer, or the first and the last if there is no copy. If there is
/// one, it is held to its laws and handed back as the library wrote it.
fn check_clean(bytes: &[u8], counts: &mut Counts) -> Result<Option<Vec<u8>>, String> {
    let copy = reference::clean(bytes);
    let mut rooms = vec![0, bytes.len() + SPARE];
    if let Ok(copy) = &copy {
        rooms.extend([copy.len() - 1, copy.len() + 1, copy.len()]);
    }
    let mut lent = Lent::holding(bytes, &BYTES_GUARD);
    let before = lent.whole.clone();
    let mut last = None;
    for room in rooms {
        last = check_clean_in(&mut lent, &copy, room, counts)?;
    }
    same("register after desk_clean", &before, &lent.whole)?;
    if let Some(copy) = &last {
        check_copy(bytes, copy, counts)?;
    }
    Ok(last)
}

/// The clean copy in one buffer, as it should be or refused. Hands back what the library wrote, if it
/// was not refused.
fn check_clean_in(
    lent: &mut Lent<u8>,
    copy: &Result<Vec<u8>, Refusal>,
    room: usize,
    counts: &mut Counts,
) -> Result<Option<Vec<u8>>, String> {
    let mut expected = Lent::bytes_to_fill(room);
    let answer = written(match copy {
        Ok(copy) => reference::write_text(copy, expected.middle()),
        Err(refusal) => Err(*refusal),
    });
    let mut out = Lent::bytes_to_fill(room);
    // SAFETY: each pointer has as many bytes after it as its length says.
    let found = unsafe { ffi::desk_clean(lent.pointer(), lent.length, out.pointer(), room) };
    counts.call(answer.refusal);
    same("desk_clean", &answer, &found)?;
    let what = "buffer after desk_clean, guards included";
    same_text(what, &expected.whole, &out.whole)?;
    let length = found.length as usize;
    Ok((found.refusal == 0).then(|| out.middle()[..length].to_vec()))
}

/// The laws of a single copy, by the library alone: it reads as its register does, and cleaned again
/// it stays as it is.
fn check_copy(bytes: &[u8], copy: &[u8], counts: &mut Counts) -> Result<(), String> {
    let mut read = |text| library_read(text, bytes.len(), counts);
    let register = read(bytes).map_err(|refusal| format!("cleaned, not read: {refusal:?}"))?;
    clean::reads_alike(&register, &read(copy))?;
    clean::stays(copy, &library_clean(copy, counts))?;
    counts.copies += 1;
    Ok(())
}

/// Two registers: the clean copy of each by itself, and if neither is refused, whether the copies are
/// equal exactly where the registers say the same.
fn check_copies(first: &[u8], second: &[u8], counts: &mut Counts) -> Result<(), String> {
    check_read(first, counts)?;
    check_read(second, counts)?;
    let copies = (check_clean(first, counts)?, check_clean(second, counts)?);
    let (Some(copy), Some(other)) = copies else {
        return Ok(());
    };
    let (Ok(first), Ok(second)) = (reference::read(first), reference::read(second)) else {
        return Ok(());
    };
    match clean::equal_where_same([&first, &second], [&copy, &other])? {
        true => counts.equal_copies += 1,
        false => counts.other_copies += 1,
    }
    Ok(())
}

/// A register as the library reads it, with the names at the places that are looked at.
fn library_read<'a>(
    bytes: &'a [u8],
    chance: usize,
    counts: &mut Counts,
) -> Result<Register<'a>, Refusal> {
    let read = desk::read(bytes).map_err(by_library);
    counts.call(number(&read));
    let read = read?;
    let mut names = Vec::new();
    for place in places(read.populations().len(), chance) {
        let name = desk::name(bytes, place).map_err(by_library);
        counts.call(number(&name));
        names.push(name?);
    }
    Ok(Register {
        method: Method::ALL[read.method() as usize],
        house: read.house(),
        total: read.total(),
        names,
        populations: read.populations().to_vec(),
    })
}

/// The library's clean copy of a copy, in a buffer of just its length.
fn library_clean(copy: &[u8], counts: &mut Counts) -> Result<Vec<u8>, Refusal> {
    let mut again = Lent::bytes_to_fill(copy.len());
    let answer = desk::write_clean(copy, again.middle()).map_err(by_library);
    counts.call(number(&answer));
    answer.map(|length| again.middle()[..length].to_vec())
}

fn by_library(refusal: desk::Refusal) -> Refusal {
    Refusal {
        number: refusal.number,
        line: refusal.line,
    }
}

/// The refusal's number, 0 where there is none.
fn number<T>(answer: &Result<T, Refusal>) -> u64 {
    answer.as_ref().map_or_else(|refusal| refusal.number, |_| 0)
}

/// So many names are looked at one by one.
const FEW_NAMES: usize = 40;

/// The places of the names that are looked at: all of them, or of many states the first, the last and
/// one between by some number, since the library reads the register anew for each.
fn places(n: usize, chance: usize) -> Vec<usize> {
    if n <= FEW_NAMES {
        (0..n).collect()
    } else {
        vec![0, chance % n, n - 1]
    }
}

// ---- Allotting

/// Hands back the library's seats, if it was not refused.
fn check_allot(
    method: u64,
    house: u64,
    populations: &[u64],
    room: usize,
    counts: &mut Counts,
) -> Result<Option<Vec<u64>>, String> {
    let mut written = Lent::to_fill(room, junk_number);
    let answer = match Method::ALL.get(method as usize) {
        Some(&method) => reference::allot(method, house, populations, written.middle())
            .map_err(|refusal| refusal.number),
        None => Err(4),
    };
    let expected = match answer {
        Ok(steps) => ffi::Allotted { refusal: 0, steps },
        Err(refusal) => ffi::Allotted { refusal, steps: 0 },
    };
    let mut lent = Lent::holding(populations, &NUMBERS_GUARD);
    let before = lent.whole.clone();
    let mut seats = Lent::to_fill(room, junk_number);
    // SAFETY: each pointer has as many numbers after it as its length says.
    let found = unsafe {
        ffi::desk_allot(
            method,
            house,
            lent.pointer(),
            populations.len(),
            seats.pointer(),
            room,
        )
    };
    counts.call(expected.refusal);
    same("desk_allot", &expected, &found)?;
    same("populations after desk_allot", &before, &lent.whole)?;
    same("seats after desk_allot", &written.whole, &seats.whole)?;
    if found.refusal != 0 {
        return Ok(None);
    }
    if method == 0 {
        check_search(populations, house, house, seats.middle(), counts)?;
    }
    Ok(Some(seats.middle().to_vec()))
}

/// For a small problem, the seats have to be those that the search through every allotment finds.
pub(crate) fn check_search(
    populations: &[u64],
    house: u64,
    total: u64,
    seats: &[u64],
    counts: &mut Counts,
) -> Result<(), String> {
    if allotments(populations.len() as u64, total) > 400 {
        return Ok(());
    }
    counts.searched += 1;
    let least = reference::search(populations, house, total).expect("a total not below n");
    same("seats against the search", &&least[..], &seats)
}

/// How many allotments a total has, a seat at least for each state; cut off once it is large.
fn allotments(states: u64, total: u64) -> u64 {
    let mut ways: u64 = 1;
    for k in 1..states {
        ways = ways * (total - k) / k;
        if ways > 1_000_000 {
            break;
        }
    }
    ways
}

// ---- Growth

/// A house and one seat more, where there is such a house: each as an allotment by itself, and if
/// neither is refused, the law.
fn check_growth(
    method: u64,
    house: u64,
    populations: &[u64],
    counts: &mut Counts,
) -> Result<(), String> {
    let mut allotted = |house| check_allot(method, house, populations, populations.len(), counts);
    let smaller = allotted(house)?;
    let larger = match house.checked_add(1) {
        Some(larger) => allotted(larger)?,
        None => None,
    };
    let (Some(smaller), Some(larger)) = (smaller, larger) else {
        return Ok(());
    };
    let outcome = growth::one_seat_more(&smaller, &larger);
    let (method, keep) = (accepted(method), &growth::ONE_SEAT_MORE);
    counts.one_seat_more.take(method, keep, outcome)
}

/// Two polls at one house: each as an allotment by itself, and if neither is refused and they have
/// as many states, the law.
fn check_polls(
    method: u64,
    house: u64,
    before: &[u64],
    after: &[u64],
    counts: &mut Counts,
) -> Result<(), String> {
    let mut allotted = |polled: &[u64]| check_allot(method, house, polled, polled.len(), counts);
    let seats = (allotted(before)?, allotted(after)?);
    let (Some(seats_before), Some(seats_after)) = seats else {
        return Ok(());
    };
    if before.len() != after.len() {
        return Ok(());
    }
    let poll = |counts, seats| Poll { counts, seats };
    let outcome = growth::two_polls(poll(before, &seats_before), poll(after, &seats_after));
    let (method, keep) = (accepted(method), &growth::TWO_POLLS);
    counts.two_polls.take(method, keep, outcome)?;
    if keep.contains(&method) {
        counts.moved += (seats_before != seats_after) as u64;
    }
    Ok(())
}

/// The method of an allotment that was not refused.
fn accepted(method: u64) -> Method {
    Method::ALL[method as usize]
}

// ---- Placings

const NO_PLACING: ffi::Placing = ffi::Placing {
    states: 0,
    house: 0,
    total: 0,
    steps: 0,
    populations: [0; STATES_LIMIT],
    seats: [0; STATES_LIMIT],
};

/// Opening, and if it is not refused, the way to the house.
fn check_walk(populations: &[u64], house: u64, counts: &mut Counts) -> Result<(), String> {
    let opened = reference::open(populations, house);
    let expected = match &opened {
        Ok(placing) => ffi::Placed {
            refusal: 0,
            placing: in_c(placing),
        },
        Err(refusal) => ffi::Placed {
            refusal: refusal.number,
            placing: NO_PLACING,
        },
    };
    let mut lent = Lent::holding(populations, &NUMBERS_GUARD);
    let before = lent.whole.clone();
    // SAFETY: the pointer has as many numbers after it as the length says.
    let found = unsafe { ffi::desk_open(lent.pointer(), populations.len(), house) };
    counts.call(expected.refusal);
    same("desk_open", &expected, &found)?;
    same("populations after desk_open", &before, &lent.whole)?;

    match &opened {
        Ok(opened) => moves::check_way(moves::library, opened, counts),
        Err(_) => Ok(()),
    }
}

// ---- Departures

fn check_departure(
    population: u64,
    seats: u64,
    total: u64,
    house: u64,
    counts: &mut Counts,
) -> Result<(), String> {
    let (refusal, shown, mark) = match reference::departure(population, seats, total, house) {
        Ok(Some((shown, Mark::In))) => (0, shown, 0),
        Ok(Some((shown, Mark::High))) => (0, shown, 1),
        Ok(Some((shown, Mark::Over))) => (0, shown, 2),
        Ok(None) => (0, 0, 3),
        Err(refusal) => (refusal.number, 0, 3),
    };
    let expected = ffi::Shown {
        refusal,
        shown,
        mark,
    };
    // SAFETY: numbers alone are handed over.
    let found = unsafe { ffi::desk_departure(population, seats, total, house) };
    counts.call(refusal);
    same("desk_departure", &expected, &found)
}

#[cfg(test)]
mod tests {
    use super::*;

    #[test]
    fn a_broken_law_is_an_error_but_under_methods_that_are_excepted() {
        let laws: [&[Method]; 2] = [&growth::ONE_SEAT_MORE, &growth::TWO_POLLS];
        for (law, kept) in laws.into_iter().zip([6, 5]) {
            let mut outcomes = Outcomes::default();
            let mut errors = 0;
            for method in Method::ALL {
                assert_eq!(outcomes.take(method, law, Ok(())), Ok(()));
            }
            assert_eq!(outcomes.broken, [0; 8]);
            for method in Method::ALL {
                let taken = outcomes.take(method, law, Err("broken".to_string()));
                errors += taken.is_err() as u64;
            }
            assert_eq!(errors, kept);
            assert_eq!(outcomes.held.iter().sum::<u64>(), kept);
            for (held, broken) in outcomes.held.iter().zip(outcomes.broken) {
                assert_eq!(held + broken, 1);
            }
            assert_eq!(outcomes.broken[Method::Leximin as usize], 1);
            assert_eq!(outcomes.broken[Method::Remainders as usize], 1);
        }
    }
}
