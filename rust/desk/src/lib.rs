//! The proved allotment desk, called from Rust: it reads a register of states, allots a house by
//! one of eight methods, shows leximin's work seat by seat, writes a listing, and writes clean
//! copies of registers. Every function here is a thin safe wrapper over the C interface in [`ffi`].
//! The library allocates nothing; a call takes up to 200 KiB of stack, as `include/desk.h` says for
//! each operation.
//!
//! ```
//! let register = b"register,leximin,3,2\nNorth,100\nSouth,200\ntotal,300\n";
//!
//! let listing = desk::listing(register).unwrap();
//! assert_eq!(
//!     String::from_utf8(listing).unwrap(),
//!     "allotment,leximin,3,2\nNorth,100,1,0.000,in\nSouth,200,2,0.000,in\ntotal,300,3\n"
//! );
//!
//! // The same seats without a register.
//! let mut seats = [0; 2];
//! desk::allot(desk::Method::Leximin, 3, &[100, 200], &mut seats).unwrap();
//! assert_eq!(seats, [1, 2]);
//!
//! // A refusal has document 01's number and the line at fault, and says in words what is wrong.
//! let refusal = desk::read(b"register,leximin,3,2\nNorth,100\n").unwrap_err();
//! assert_eq!((refusal.number, refusal.line), (2, 3));
//! assert_eq!(
//!     refusal.to_string(),
//!     "refused 2 on line 3: the line is missing, unended or ill-formed, or it follows the closing line"
//! );
//! ```

pub mod ffi;
mod refusals;
mod words;

pub use refusals::{Reason, Refusal};

/// The version of the library's interface, as `include/desk.h` names it.
pub const VERSION: &str = env!("DESK_VERSION");
/// The most states a register may have.
pub const STATES_LIMIT: usize = 800;
/// The thousandths of a per cent in one whole: a departure shown as so many is 100 per cent.
pub const SHOWN_SCALE: i64 = 100_000;
/// Room for a listing's first line: `allotment,remainders,30000,800` and its end.
const HEAD_ROOM: usize = 31;
/// Room for a state's line: a name of 32 bytes, `,4294967295,30000,2999900.000,high` and its end.
const LINE_ROOM: usize = 67;
/// Room for the line of totals: `total,4294967295,30000` and its end.
const TOTAL_ROOM: usize = 23;
/// Room for any listing, as the library is proved to.
pub const LISTING_ROOM: usize = HEAD_ROOM + STATES_LIMIT * LINE_ROOM + TOTAL_ROOM;
/// Room for a clean copy's first line: `register,remainders,30000,800` and its end.
const CLEAN_HEAD_ROOM: usize = 30;
/// Room for a state's line in a clean copy: a name of 32 bytes, `,4294967295` and its end.
const CLEAN_LINE_ROOM: usize = 44;
/// Room for a clean copy's closing line: `total,4294967295` and its end.
const CLEAN_TOTAL_ROOM: usize = 17;
/// Room for any clean copy of a register, as the library is proved to.
pub const CLEAN_ROOM: usize = CLEAN_HEAD_ROOM + STATES_LIMIT * CLEAN_LINE_ROOM + CLEAN_TOTAL_ROOM;

/// A refusal if the number says there was one.
fn outcome(number: u64, line: u64) -> Result<(), Refusal> {
    match number {
        0 => Ok(()),
        _ => Err(Refusal { number, line }),
    }
}

/// The eight methods, in the order of their numbers. Under largest remainders, of equal remainders
/// the larger population has the seat, and of equal populations too the earlier state. Quota,
/// by Balinski and Young, gives seat after seat as Jefferson does, but only to states below their
/// share of the seats so far, that seat included. A method is displayed as, and parsed from, the word
/// that a register has for it.
#[derive(Clone, Copy, Debug, PartialEq, Eq)]
pub enum Method {
    Leximin,
    Adams,
    Dean,
    Hill,
    Webster,
    Jefferson,
    Remainders,
    Quota,
}

impl Method {
    pub const ALL: [Method; 8] = [
        Method::Leximin,
        Method::Adams,
        Method::Dean,
        Method::Hill,
        Method::Webster,
        Method::Jefferson,
        Method::Remainders,
        Method::Quota,
    ];
}

/// A register as read.
#[derive(Clone, Debug, PartialEq, Eq)]
pub struct Register(ffi::Reading);

/// Reads a register, or says which line is at fault: refusals 1 to 7.
pub fn read(bytes: &[u8]) -> Result<Register, Refusal> {
    // SAFETY: pointer and length are those of one slice, which is only read.
    let reading = unsafe { ffi::desk_read(bytes.as_ptr(), bytes.len()) };
    outcome(reading.refusal, reading.line)?;
    Ok(Register(reading))
}

impl Register {
    pub fn method(&self) -> Method {
        Method::ALL[self.0.method as usize]
    }

    pub fn house(&self) -> u64 {
        self.0.house
    }

    /// The sum of the populations.
    pub fn total(&self) -> u64 {
        self.0.total
    }

    /// The populations in register order.
    pub fn populations(&self) -> &[u64] {
        &self.0.populations[..self.0.states as usize]
    }
}

/// The name of the state with a given place, counted from 0: reading's refusals, then 40 for a
/// place not below the number of states.
pub fn name(bytes: &[u8], place: usize) -> Result<&[u8], Refusal> {
    // SAFETY: pointer and length are those of one slice, which is only read.
    let part = unsafe { ffi::desk_name(bytes.as_ptr(), bytes.len(), place) };
    outcome(part.refusal, part.line)?;
    Ok(&bytes[part.start as usize..][..part.length as usize])
}

/// Fills the lent list with each state's seats and hands back leximin's steps, 0 under the other
/// methods: refusals 10 to 15, which leave the list as it was. Where the same populations are
/// accepted with a house and with one seat more, one state gains a seat and no other state
/// changes, except under leximin and largest remainders, where a state may lose seats.
pub fn allot(
    method: Method,
    house: u64,
    populations: &[u64],
    seats: &mut [u64],
) -> Result<u64, Refusal> {
    // SAFETY: each pointer stands with its own slice's length, and the two do not overlap.
    let allotted = unsafe {
        ffi::desk_allot(
            method as u64,
            house,
            populations.as_ptr(),
            populations.len(),
            seats.as_mut_ptr(),
            seats.len(),
        )
    };
    outcome(allotted.refusal, 0)?;
    Ok(allotted.steps)
}

/// Leximin's work, from each state's nearest seats to the house: a screen moves it on by one seat at
/// a time, and a batch run by all that are left.
///
/// ```
/// let mut placing = desk::Placing::open(&[1, 1, 1, 97], 4).unwrap();
/// assert_eq!(placing.seats(), [1, 1, 1, 4]);
///
/// // One seat, to be shown.
/// assert_eq!(placing.advance(1), Ok(1));
/// assert_eq!(placing.seats(), [1, 1, 1, 3]);
///
/// // The rest in one call: any number from the gap on will do.
/// assert_eq!(placing.advance(u64::MAX), Ok(2));
/// assert_eq!(placing.seats(), [1, 1, 1, 1]);
/// assert_eq!((placing.total(), placing.steps()), (4, 3));
///
/// // At the house nothing moves.
/// assert_eq!(placing.advance(1), Ok(0));
/// ```
#[derive(Clone, Debug, PartialEq, Eq)]
pub struct Placing(ffi::Placing);

impl Placing {
    /// Opens a placing: refusals 10 to 13 and 15.
    pub fn open(populations: &[u64], house: u64) -> Result<Placing, Refusal> {
        // SAFETY: pointer and length are those of one slice, which is only read.
        let placed = unsafe { ffi::desk_open(populations.as_ptr(), populations.len(), house) };
        outcome(placed.refusal, 0)?;
        Ok(Placing(placed.placing))
    }

    /// Moves on towards the house by so many seats and hands back how many were moved: all of them,
    /// or those that were left to the house. Two moves come to the same as one by their sum, if there
    /// is such a number. Refusal 21 is for a placing that opening and moves do not give, which safe
    /// code cannot make.
    pub fn advance(&mut self, seats: u64) -> Result<u64, Refusal> {
        // SAFETY: the placing is lent for this call alone.
        let moved = unsafe { ffi::desk_move(&mut self.0, seats) };
        outcome(moved.refusal, 0)?;
        Ok(moved.moved)
    }

    pub fn house(&self) -> u64 {
        self.0.house
    }

    /// The seats placed in all.
    pub fn total(&self) -> u64 {
        self.0.total
    }

    /// The seats moved since opening.
    pub fn steps(&self) -> u64 {
        self.0.steps
    }

    pub fn populations(&self) -> &[u64] {
        &self.0.populations[..self.0.states as usize]
    }

    pub fn seats(&self) -> &[u64] {
        &self.0.seats[..self.0.states as usize]
    }
}

/// How far a departure is from the average: up to 10 per cent, up to 15, beyond. It is displayed as the
/// word that a listing has for it, `in`, `high` or `over`.
#[derive(Clone, Copy, Debug, PartialEq, Eq)]
pub enum Mark {
    In,
    High,
    Over,
}

/// A departure as it is shown, in thousandths of a per cent ([`SHOWN_SCALE`] of them are one
/// whole), and the mark of its exact size. Above the average, a positive number, means more people a
/// seat. It is displayed in per cent, as a listing has it:
///
/// ```
/// let departure = desk::departure(26, 3, 201, 20).unwrap().unwrap();
/// assert_eq!(departure.shown, -13765);
/// assert_eq!(departure.to_string(), "-13.765");
/// assert_eq!(departure.mark.to_string(), "high");
/// ```
#[derive(Clone, Copy, Debug, PartialEq, Eq)]
pub struct Departure {
    pub shown: i64,
    pub mark: Mark,
}

/// The departure of a state from the average total / house, none without seats: refusal 30
/// outside the limits.
pub fn departure(
    population: u64,
    seats: u64,
    total: u64,
    house: u64,
) -> Result<Option<Departure>, Refusal> {
    // SAFETY: numbers alone are handed over.
    let answer = unsafe { ffi::desk_departure(population, seats, total, house) };
    outcome(answer.refusal, 0)?;
    let mark = [Some(Mark::In), Some(Mark::High), Some(Mark::Over), None][answer.mark as usize];
    let shown = answer.shown;
    Ok(mark.map(|mark| Departure { shown, mark }))
}

/// Writes the listing of a register at the front of a lent buffer and hands back its length:
/// refusals of reading and of allotting, then 31 if it is longer than the buffer. Refused, the
/// buffer is left as it was.
pub fn write_listing(bytes: &[u8], out: &mut [u8]) -> Result<usize, Refusal> {
    // SAFETY: each pointer stands with its own slice's length, and the two do not overlap.
    let written =
        unsafe { ffi::desk_listing(bytes.as_ptr(), bytes.len(), out.as_mut_ptr(), out.len()) };
    outcome(written.refusal, written.line)?;
    Ok(written.length as usize)
}

/// The listing of a register.
pub fn listing(bytes: &[u8]) -> Result<Vec<u8>, Refusal> {
    let mut out = vec![0; LISTING_ROOM];
    let length = write_listing(bytes, &mut out)?;
    out.truncate(length);
    Ok(out)
}

/// Writes the clean copy of a register at the front of a lent buffer and hands back its length:
/// reading's refusals, then 31 if it is longer than the buffer. Refused, the buffer is left as it
/// was, as are the bytes after the copy otherwise.
pub fn write_clean(bytes: &[u8], out: &mut [u8]) -> Result<usize, Refusal> {
    // SAFETY: each pointer stands with its own slice's length, and the two do not overlap.
    let written =
        unsafe { ffi::desk_clean(bytes.as_ptr(), bytes.len(), out.as_mut_ptr(), out.len()) };
    outcome(written.refusal, written.line)?;
    Ok(written.length as usize)
}

/// The clean copy of a register: the same lines, each ended by LF alone and its numbers without
/// leading zeros. It reads as the register does, names included, and its own clean copy is the same
/// bytes. Two registers have equal clean copies exactly where method, house, names and populations
/// agree in order.
///
/// ```
/// let typed = b"register,hill,0020,02\r\nNorth,007\nSouth,0013\r\ntotal,020\r\n";
/// let other = b"register,hill,20,2\r\nNorth,7\r\nSouth,13\r\ntotal,0000000020\n";
///
/// let copy = desk::clean(typed).unwrap();
/// assert_eq!(copy, b"register,hill,20,2\nNorth,7\nSouth,13\ntotal,20\n");
/// assert_eq!(desk::clean(other).unwrap(), copy);
/// ```
pub fn clean(bytes: &[u8]) -> Result<Vec<u8>, Refusal> {
    let mut out = vec![0; CLEAN_ROOM];
    let length = write_clean(bytes, &mut out)?;
    out.truncate(length);
    Ok(out)
}
