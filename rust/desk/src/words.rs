//! Methods, marks and departures as registers and listings write them.

use crate::{Departure, Mark, Method, Reason, Refusal, SHOWN_SCALE};
use std::fmt;
use std::str::FromStr;

impl Method {
    /// The word that a register has for it: `leximin`.
    pub fn word(self) -> &'static str {
        match self {
            Method::Leximin => "leximin",
            Method::Adams => "adams",
            Method::Dean => "dean",
            Method::Hill => "hill",
            Method::Webster => "webster",
            Method::Jefferson => "jefferson",
            Method::Remainders => "remainders",
            Method::Quota => "quota",
        }
    }
}

impl fmt::Display for Method {
    fn fmt(&self, f: &mut fmt::Formatter) -> fmt::Result {
        f.pad(self.word())
    }
}

/// The method of a register's word, in small letters as there; refusal 4 for any other.
///
/// ```
/// assert_eq!("hill".parse(), Ok(desk::Method::Hill));
/// assert_eq!("Hill".parse::<desk::Method>().unwrap_err().number, 4);
/// ```
impl FromStr for Method {
    type Err = Refusal;

    fn from_str(word: &str) -> Result<Method, Refusal> {
        Method::ALL
            .into_iter()
            .find(|method| method.word() == word)
            .ok_or(Refusal {
                number: Reason::MethodUnknown.number(),
                line: 0,
            })
    }
}

impl Mark {
    /// The word that a listing has for it: `in`.
    pub fn word(self) -> &'static str {
        match self {
            Mark::In => "in",
            Mark::High => "high",
            Mark::Over => "over",
        }
    }
}

impl fmt::Display for Mark {
    fn fmt(&self, f: &mut fmt::Formatter) -> fmt::Result {
        f.pad(self.word())
    }
}

/// In per cent, as a listing has it: `-13.765`.
impl fmt::Display for Departure {
    fn fmt(&self, f: &mut fmt::Formatter) -> fmt::Result {
        let per_cent = SHOWN_SCALE.unsigned_abs() / 100;
        let size = self.shown.unsigned_abs();
        let sign = if self.shown < 0 { "-" } else { "" };
        f.pad(&format!("{sign}{}.{:03}", size / per_cent, size % per_cent))
    }
}
