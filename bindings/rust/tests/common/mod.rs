//! What the tests share.

use lintelkite::Refusal;
use std::fmt::Debug;

/// Holds a call to the refusal that its input earns.
pub fn refused<T: Debug>(said: Result<T, Refusal>, why: Refusal) {
    assert_eq!(said.unwrap_err(), why);
}
