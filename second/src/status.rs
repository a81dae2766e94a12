//! The statuses and their names.

pub const SUCCESS: u8 = 0;
pub const SITE: u8 = 1;
pub const ROOM: u8 = 2;
pub const LENGTH: u8 = 3;
pub const FCS: u8 = 4;
pub const MALFORMED: u8 = 5;
pub const FILTERED: u8 = 6;
pub const UNSUPPORTED_LEGACY: u8 = 7;
pub const UNSUPPORTED_SECURITY: u8 = 8;
pub const UNAVAILABLE_SECURITY_LEVEL: u8 = 9;
pub const IMPROPER_SECURITY_LEVEL: u8 = 10;
pub const UNAVAILABLE_KEY: u8 = 11;
pub const IMPROPER_KEY_TYPE: u8 = 12;
pub const UNAVAILABLE_DEVICE: u8 = 13;
pub const COUNTER_ERROR: u8 = 14;
pub const SECURITY_ERROR: u8 = 15;
pub const FRAME_TOO_LONG: u8 = 16;
pub const INVALID_PARAMETER: u8 = 17;

/// The names by number.
pub const NAMES: [&str; 18] = [
    "SUCCESS",
    "SITE",
    "ROOM",
    "LENGTH",
    "FCS",
    "MALFORMED",
    "FILTERED",
    "UNSUPPORTED_LEGACY",
    "UNSUPPORTED_SECURITY",
    "UNAVAILABLE_SECURITY_LEVEL",
    "IMPROPER_SECURITY_LEVEL",
    "UNAVAILABLE_KEY",
    "IMPROPER_KEY_TYPE",
    "UNAVAILABLE_DEVICE",
    "COUNTER_ERROR",
    "SECURITY_ERROR",
    "FRAME_TOO_LONG",
    "INVALID_PARAMETER",
];
