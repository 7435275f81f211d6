//! The refusal numbers.

pub const ACCEPTED: u32 = 0;
pub const BAD_DIMS: u32 = 1;
pub const BAD_WIDTH: u32 = 2;
pub const BAD_LENGTH: u32 = 3;
pub const MISSING: u32 = 4;
pub const BAD_VALUE: u32 = 5;
pub const OUT_OF_RANGE: u32 = 6;
pub const NO_ROOM: u32 = 7;
pub const NO_ESTIMATE: u32 = 8;
pub const NOT_ASKED: u32 = 9;

pub const NAMES: [&str; 10] = [
    "ACCEPTED",
    "BAD_DIMS",
    "BAD_WIDTH",
    "BAD_LENGTH",
    "MISSING",
    "BAD_VALUE",
    "OUT_OF_RANGE",
    "NO_ROOM",
    "NO_ESTIMATE",
    "NOT_ASKED",
];
