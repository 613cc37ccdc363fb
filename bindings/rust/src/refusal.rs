//! Document 01's numbers from 1.

use core::fmt;

macro_rules! refusals {
    ($($(#[$attribute:meta])* $number:literal $name:ident $text:literal)*) => {
        /// What a call answers where it refuses. The call has then left all lent memory as it was.
        #[derive(Clone, Copy, Debug, PartialEq, Eq, PartialOrd, Ord, Hash)]
        #[repr(u16)]
        pub enum Refusal {
            $(#[doc = $text] $(#[$attribute])* $name = $number,)*
        }

        #[allow(deprecated)]
        impl Refusal {
            /// Every refusal, in the order of the numbers, the retired one among them.
            pub const ALL: &'static [Refusal] = &[$(Refusal::$name),*];

            /// The refusal with a number, if there is one.
            pub const fn from_number(number: u16) -> Option<Refusal> {
                match number {
                    $($number => Some(Refusal::$name),)*
                    _ => None,
                }
            }

            /// Document 01's text.
            pub const fn text(self) -> &'static str {
                match self {
                    $(Refusal::$name => $text,)*
                }
            }
        }
    };
}

refusals! {
    1 OperatorsOver "operators over 200"
    2 RidesOver "rides over 60"
    3 PartShort "a lent part is too short"
    4 PairsOver "pairs over operators × rides"
    5 PairMisplaced "a pair out of range, or not strictly ascending"
    6 StampMissing "message: a listed pair has stamp 0"
    7 KindUnknown "message: kind not 1 to 6"
    8 OutOfRange "message: operator or ride out of range"
    9 StampZero "message or starting stamp is 0"
    10 NotLater "message not later than the last of its pair, operator or ride"
    #[deprecated = "never given since 1.2.0: a limit of 0 is no limit; check a permit's β before the call"]
    11 LimitZero "retired: limits may be 0"
    12 MarkUnknown "peel: a mark in use is not 0 or 1"
    13 InputLengthWrong "program: input length wrong"
    14 RevisionOver "message: revision over 255"
    15 UnusedField "message: an unused field is not 0"
    16 BandsMalformed "a band count outside 1 to 8, a band whose first count exceeds its last, or a guest count above 20,000"
    17 BandsOverlap "an overlap: two bands share a guest count"
    18 BandsGap "a gap: a guest count falls in no band"
}

impl Refusal {
    /// Document 01's number.
    pub const fn number(self) -> u16 {
        self as u16
    }

    /// What an answer number says: 0 is done or taken.
    ///
    /// # Panics
    /// Where document 01 has no such number. No call answers one.
    pub fn check(number: u16) -> Result<(), Refusal> {
        match (number, Refusal::from_number(number)) {
            (0, _) => Ok(()),
            (_, Some(refusal)) => Err(refusal),
            (_, None) => panic!("document 01 has no number {number}"),
        }
    }
}

impl fmt::Display for Refusal {
    fn fmt(&self, to: &mut fmt::Formatter) -> fmt::Result {
        write!(to, "{}: {}", self.number(), self.text())
    }
}

impl core::error::Error for Refusal {}
