//! Refusals by name and in words. The words are those of `include/desk_refusals.h`, which the build
//! script hands over, and C and Python have the same.

use std::fmt;

macro_rules! reasons {
    ($($number:literal $variant:ident $name:literal $wrong:literal $mend:literal;)*) => {
        /// Why the desk refuses, by name. A later version may know more reasons.
        #[derive(Clone, Copy, Debug, PartialEq, Eq, Hash)]
        #[non_exhaustive]
        #[repr(u64)]
        pub enum Reason {
            $(#[doc = concat!($number, ": ", $wrong, ".")] $variant = $number,)*
        }

        impl Reason {
            /// Every reason, in the order of their numbers.
            pub const ALL: &'static [Reason] = &[$(Reason::$variant),*];

            /// The reason with a number; none for 0, and for a number that this version does
            /// not know.
            pub fn of(number: u64) -> Option<Reason> {
                match number {
                    $($number => Some(Reason::$variant),)*
                    _ => None,
                }
            }

            /// Its name in C and Python: `TOTAL_DIFFERS`.
            pub fn name(self) -> &'static str {
                match self {
                    $(Reason::$variant => $name,)*
                }
            }

            /// What is wrong, as a clause.
            pub fn sentence(self) -> &'static str {
                match self {
                    $(Reason::$variant => $wrong,)*
                }
            }

            /// What to mend, as a clause.
            pub fn remedy(self) -> &'static str {
                match self {
                    $(Reason::$variant => $mend,)*
                }
            }
        }
    };
}

include!(concat!(env!("OUT_DIR"), "/refusals.rs"));

impl Reason {
    /// Document 01's number.
    pub fn number(self) -> u64 {
        self as u64
    }
}

/// Why an operation was refused: document 01's number, and the line of the register counted from
/// 1, or 0 where no line applies. It is displayed in words:
///
/// ```
/// let refusal = desk::read(b"register,hill,3,1\nNorth,5\ntotal,4\n").unwrap_err();
/// assert_eq!(
///     refusal.to_string(),
///     "refused 7 on line 3: the closing total differs from the sum of the populations"
/// );
/// assert_eq!(refusal.reason(), Some(desk::Reason::TotalDiffers));
/// assert_eq!(
///     refusal.remedy(),
///     "correct the closing total, or the population that was mistyped"
/// );
/// // As the programs print it.
/// assert_eq!(refusal.printed(), "refused,7,3");
/// ```
#[derive(Clone, Copy, Debug, PartialEq, Eq)]
pub struct Refusal {
    pub number: u64,
    pub line: u64,
}

impl Refusal {
    /// The reason by name; none for a number that this version does not know.
    pub fn reason(&self) -> Option<Reason> {
        Reason::of(self.number)
    }

    /// What is wrong, as a clause; for a number that this version does not know, that it is so.
    pub fn sentence(&self) -> &'static str {
        self.reason()
            .map_or(env!("DESK_UNKNOWN_WRONG"), Reason::sentence)
    }

    /// What to mend, as a clause.
    pub fn remedy(&self) -> &'static str {
        self.reason()
            .map_or(env!("DESK_UNKNOWN_MEND"), Reason::remedy)
    }

    /// The refusal as the programs print it: `refused,number,line`.
    pub fn printed(&self) -> String {
        format!("refused,{},{}", self.number, self.line)
    }
}

impl fmt::Display for Refusal {
    fn fmt(&self, f: &mut fmt::Formatter) -> fmt::Result {
        write!(f, "refused {}", self.number)?;
        if self.line != 0 {
            write!(f, " on line {}", self.line)?;
        }
        write!(f, ": {}", self.sentence())
    }
}

impl std::error::Error for Refusal {}
