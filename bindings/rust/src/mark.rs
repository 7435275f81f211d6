//! How far a candidate has come.

use crate::Refusal;
use std::slice;

/// What has become of a candidate.
///
/// ```
/// use lintelkite::Mark;
///
/// assert_eq!((Mark::Waiting.number(), Mark::Asked.number(), Mark::Given.number()), (0, 1, 2));
/// ```
#[derive(Clone, Copy, Debug, Default, PartialEq, Eq, PartialOrd, Ord, Hash)]
#[non_exhaustive]
#[repr(u8)]
pub enum Mark {
    /// Its distance has not been supplied.
    #[default]
    Waiting = 0,
    /// Its distance has been asked for and supplied.
    Asked = 1,
    /// It has been handed out.
    Given = 2,
}

impl Mark {
    /// The byte that stands for it in the C functions' lists.
    ///
    /// ```
    /// assert_eq!(lintelkite::Mark::Given.number(), 2);
    /// ```
    #[must_use]
    pub const fn number(self) -> u8 {
        self as u8
    }

    /// The mark with this number.
    ///
    /// # Errors
    /// [`Refusal::BadValue`]: there is none.
    ///
    /// ```
    /// use lintelkite::{Mark, Refusal};
    ///
    /// assert_eq!(Mark::of_number(1), Ok(Mark::Asked));
    /// assert_eq!(Mark::of_number(3), Err(Refusal::BadValue));
    /// ```
    pub fn of_number(number: u8) -> Result<Mark, Refusal> {
        let all = [Mark::Waiting, Mark::Asked, Mark::Given];
        all.into_iter().find(|mark| mark.number() == number).ok_or(Refusal::BadValue)
    }
}

/// The bytes of some marks. The C functions that are lent them write no byte but those of the three marks.
pub(crate) fn of_marks_mut(marks: &mut [Mark]) -> &mut [u8] {
    unsafe { slice::from_raw_parts_mut(marks.as_mut_ptr().cast(), marks.len()) }
}
