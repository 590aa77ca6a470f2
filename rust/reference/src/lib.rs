//! A plain allotment desk, written from document 01 and its change requests alone, to compare the
//! proved one with. It takes the straight road everywhere: 128-bit integers, a heap of claims met
//! one by one, sorting, and for small problems a search through every allotment.

mod allotting;
mod clean;
mod departure;
mod leximin;
mod listing;
mod register;

pub use allotting::{allot, check_problem};
pub use clean::{clean, write_clean};
pub use departure::{departure, mark_name, shown_text, Mark, SHOWN_SCALE};
pub use leximin::{open, search, way, Placing};
pub use listing::{listing, write_listing};
pub use register::{name, read, Register};

/// The most states a register may have.
pub const STATES_LIMIT: usize = 800;
/// The largest house.
pub const HOUSE_LIMIT: u64 = 30_000;
/// The largest sum of populations.
pub const SUM_LIMIT: u64 = 4_294_967_295;
/// The most bytes a register may have.
pub const BYTES_LIMIT: usize = 65_536;

/// Why an operation was refused: the document's number, and the line of the register
/// counted from 1, or 0 where no line applies.
#[derive(Clone, Copy, Debug, PartialEq, Eq)]
pub struct Refusal {
    pub number: u64,
    pub line: u64,
}

/// A refusal that no line of a register applies to.
pub(crate) fn refusal(number: u64) -> Refusal {
    Refusal { number, line: 0 }
}

/// Writes a text at the front of a lent buffer and hands back its length: 31 if it is longer than
/// the buffer. Refused, the buffer keeps its contents, as do the bytes after the text otherwise.
pub fn write_text(text: &[u8], out: &mut [u8]) -> Result<usize, Refusal> {
    let room = out.get_mut(..text.len()).ok_or(refusal(31))?;
    room.copy_from_slice(text);
    Ok(text.len())
}

/// The eight methods, in the order in which the document names them and the requests add to them.
#[derive(Clone, Copy, Debug, PartialEq, Eq)]
pub enum Method {
    Leximin,
    Adams,
    Dean,
    Hill,
    Webster,
    Jefferson,
    Remainders,
    Quota,
}

impl Method {
    pub const ALL: [Method; 8] = [
        Method::Leximin,
        Method::Adams,
        Method::Dean,
        Method::Hill,
        Method::Webster,
        Method::Jefferson,
        Method::Remainders,
        Method::Quota,
    ];

    /// The method's name in a register.
    pub fn name(self) -> &'static str {
        match self {
            Method::Leximin => "leximin",
            Method::Adams => "adams",
            Method::Dean => "dean",
            Method::Hill => "hill",
            Method::Webster => "webster",
            Method::Jefferson => "jefferson",
            Method::Remainders => "remainders",
            Method::Quota => "quota",
        }
    }

    /// Whether the method gives every state a seat, so that a house below n is refused.
    pub fn seats_every_state(self) -> bool {
        matches!(
            self,
            Method::Leximin | Method::Adams | Method::Dean | Method::Hill
        )
    }
}
