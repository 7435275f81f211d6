//! Which distance is meant.

use crate::Refusal;

/// Which distance is meant.
///
/// ```
/// use lintelkite::Metric;
///
/// assert_eq!((Metric::L2.number(), Metric::Dot.number()), (1, 2));
/// ```
#[derive(Clone, Copy, Debug, PartialEq, Eq, PartialOrd, Ord, Hash)]
#[repr(u32)]
pub enum Metric {
    /// The square of the Euclidean distance.
    L2 = 1,
    /// The dot product, negated, so that less is nearer.
    Dot = 2,
}

impl Metric {
    /// The number that the C functions take.
    ///
    /// ```
    /// assert_eq!(lintelkite::Metric::Dot.number(), 2);
    /// ```
    #[must_use]
    pub const fn number(self) -> u32 {
        self as u32
    }

    /// The metric with this number.
    ///
    /// # Errors
    /// [`Refusal::BadValue`]: there is none.
    ///
    /// ```
    /// use lintelkite::{Metric, Refusal};
    ///
    /// assert_eq!(Metric::of_number(1), Ok(Metric::L2));
    /// assert_eq!(Metric::of_number(3), Err(Refusal::BadValue));
    /// ```
    pub fn of_number(number: u32) -> Result<Metric, Refusal> {
        [Metric::L2, Metric::Dot].into_iter().find(|metric| metric.number() == number).ok_or(Refusal::BadValue)
    }
}
