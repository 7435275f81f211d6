//! Why a call refuses.

use std::error::Error;
use std::fmt;

/// Why a call refuses. A call that refuses has changed nothing.
///
/// Where several reasons hold, the one with the smallest number is given.
///
/// ```
/// use lintelkite::{digits, Refusal, Width};
///
/// // Two bits hold codes of at most 3.
/// assert_eq!(digits::pack(Width::Two, &[1, 2, 4]), Err(Refusal::BadValue));
/// ```
#[derive(Clone, Copy, Debug, PartialEq, Eq, PartialOrd, Ord, Hash)]
#[non_exhaustive]
#[repr(u32)]
pub enum Refusal {
    /// Dims is 0 or above the limit: 65,535 for digits and the scalar quantizer, else 4,369.
    BadDims = 1,
    /// A width is not 1, 2, 4 or 8 bits.
    BadWidth = 2,
    /// A slice is not of the length that the call states, lists have more than 4,096 places, or a walk has more than
    /// 1,048,576 records.
    BadLength = 3,
    /// A NaN or an infinity in a vector, min, max, `dis_v_2`, `b` or `k`; a NaN estimate; a NaN distance that is supplied
    /// or stands at an asked place; a root of a NaN or of a number below 0.
    Missing = 4,
    /// A query code above 15, a code to pack above the width's top, `dis_v_2` below 0, min above max, or a number that
    /// none of its kind has: a metric, a layout, a mark.
    BadValue = 5,
    /// A range that ends past the records, an index at or past dims, or a lane above 31.
    OutOfRange = 6,
    /// The range has more ids than there are places for them.
    NoRoom = 7,
    /// What the call works out is a NaN: an estimate, the lower bound of a wanted id, or a scalar sum.
    NoEstimate = 8,
    /// A distance for a place that is not asked for now.
    NotAsked = 9,
}

impl Refusal {
    /// Every refusal, by number.
    pub const ALL: [Refusal; 9] = [
        Refusal::BadDims,
        Refusal::BadWidth,
        Refusal::BadLength,
        Refusal::Missing,
        Refusal::BadValue,
        Refusal::OutOfRange,
        Refusal::NoRoom,
        Refusal::NoEstimate,
        Refusal::NotAsked,
    ];

    /// The number that the C function returns.
    ///
    /// ```
    /// assert_eq!(lintelkite::Refusal::Missing.number(), 4);
    /// ```
    #[must_use]
    pub const fn number(self) -> u32 {
        self as u32
    }

    /// The refusal with this number, if there is one. An accepted call returns 0, and that is none.
    ///
    /// ```
    /// use lintelkite::Refusal;
    ///
    /// assert_eq!(Refusal::of_number(7), Some(Refusal::NoRoom));
    /// assert_eq!(Refusal::of_number(0), None);
    /// ```
    #[must_use]
    pub fn of_number(number: u32) -> Option<Refusal> {
        Refusal::ALL.into_iter().find(|refusal| refusal.number() == number)
    }

    /// The name that it has in the C header, without its `LK_`.
    ///
    /// ```
    /// assert_eq!(lintelkite::Refusal::OutOfRange.name(), "OUT_OF_RANGE");
    /// ```
    #[must_use]
    pub const fn name(self) -> &'static str {
        match self {
            Refusal::BadDims => "BAD_DIMS",
            Refusal::BadWidth => "BAD_WIDTH",
            Refusal::BadLength => "BAD_LENGTH",
            Refusal::Missing => "MISSING",
            Refusal::BadValue => "BAD_VALUE",
            Refusal::OutOfRange => "OUT_OF_RANGE",
            Refusal::NoRoom => "NO_ROOM",
            Refusal::NoEstimate => "NO_ESTIMATE",
            Refusal::NotAsked => "NOT_ASKED",
        }
    }
}

/// The number, the name, and everything that a caller may have to look at.
///
/// ```
/// use lintelkite::Refusal;
///
/// let said = Refusal::NotAsked.to_string();
/// assert_eq!(said, "refusal 9, NOT_ASKED: the distance is for a place that is not asked for now");
/// let said = lintelkite::root(-1.0).unwrap_err().to_string();
/// assert!(said.starts_with("refusal 4, MISSING: ") && said.ends_with("or the root of a NaN or of a number below 0"));
/// ```
impl fmt::Display for Refusal {
    fn fmt(&self, f: &mut fmt::Formatter<'_>) -> fmt::Result {
        let why = match self {
            Refusal::BadDims => {
                "dims is 0 or above the limit, 65,535 for digits and the scalar quantizer and 4,369 for the rest"
            }
            Refusal::BadWidth => "the width is not 1, 2, 4 or 8 bits",
            Refusal::BadLength => {
                "a slice is not of the length that the call states, lists have more than 4,096 places, or a walk has \
                 more than 1,048,576 records"
            }
            Refusal::Missing => {
                "a NaN or an infinity in a vector, min, max, dis_v_2, b or k, a NaN estimate or distance, or the root \
                 of a NaN or of a number below 0"
            }
            Refusal::BadValue => {
                "a query code is above 15, a code to pack is above the top, dis_v_2 is below 0, min is above max, or \
                 a number is no metric, layout or mark"
            }
            Refusal::OutOfRange => {
                "the range ends past the records, the index is at or past dims, or the lane is above 31"
            }
            Refusal::NoRoom => "the range has more ids than there are places for them",
            Refusal::NoEstimate => "the estimate, the lower bound of a wanted id, or the scalar sum is a NaN",
            Refusal::NotAsked => "the distance is for a place that is not asked for now",
        };
        write!(f, "refusal {}, {}: {why}", self.number(), self.name())
    }
}

impl Error for Refusal {}

/// What a C function's number says.
pub(crate) fn judge(number: u32) -> Result<(), Refusal> {
    match number {
        0 => Ok(()),
        n => Err(Refusal::of_number(n).unwrap_or_else(|| panic!("the archive is not of this version: refusal {n}"))),
    }
}
