//! What is wrong, and where.

use core::fmt;

/// The mode is none of 0 to 5.
pub const MODE_UNKNOWN: u8 = 1;
/// The type byte, the answer byte or the code is none of the mode's; encoding: no such kind.
pub const TYPE_UNKNOWN: u8 = 2;
/// The length is below the kind's smallest length.
pub const LENGTH_TOO_SMALL: u8 = 3;
/// The length is above the kind's limit.
pub const LENGTH_ABOVE_LIMIT: u8 = 4;
/// A signed count is negative, or a count is larger than the bytes after it allow.
pub const BAD_COUNT: u8 = 5;
/// A number, code byte, string or value is cut by the frame's end.
pub const CUT: u8 = 6;
/// A target or status byte that is none, or a value's length below -1.
pub const NOT_ALLOWED: u8 = 7;
/// Bytes are left over after the last field.
pub const BYTES_LEFT: u8 = 8;
/// The output, or a slice lent for a row, is too short.
pub const OUTPUT_TOO_SHORT: u8 = 9;
/// Encoding: the message cannot be written, as a string with a zero byte in it. A row being built: the room does not begin with it, or it is full.
pub const NOT_REPRESENTABLE: u8 = 10;
/// The kind has no such list, or the list no such element, or the row no column to drop.
pub const NO_SUCH_ELEMENT: u8 = 11;

/// A refusal: its number, one of this module's constants, and its place, counted from the buffer's start.
///
/// ```
/// use tusweram::{decode, Decoded, Mode};
///
/// let Decoded::Refused(refusal) = decode(Mode::Backend, b"C\0\0\0\x06OK") else { panic!() };
/// assert_eq!((refusal.number, refusal.place), (6, 5));
/// assert_eq!(
///     refusal.to_string(),
///     "refusal 6 at 5: a number, code byte, string or value is cut by the frame's end, or its zero byte is missing"
/// );
/// ```
#[derive(Clone, Copy, Debug, PartialEq, Eq, Hash)]
pub struct Refusal {
    pub number: u8,
    pub place: usize,
}

impl Refusal {
    /// What is wrong, in words.
    pub fn what(&self) -> &'static str {
        match self.number {
            MODE_UNKNOWN => "the mode is unknown",
            TYPE_UNKNOWN => "the type byte, answer byte or code is unknown",
            LENGTH_TOO_SMALL => "the length is too small",
            LENGTH_ABOVE_LIMIT => "the length is above the kind's limit",
            BAD_COUNT => "a count is negative, or too large for the frame",
            CUT => "a number, code byte, string or value is cut by the frame's end, or its zero byte is missing",
            NOT_ALLOWED => "a target or status that is none, or a value's length below -1",
            BYTES_LEFT => "bytes are left over after the last field",
            OUTPUT_TOO_SHORT => "the output is too short",
            NOT_REPRESENTABLE => "the message cannot be written from what was given; a row's room does not begin with it, or it is full",
            NO_SUCH_ELEMENT => "the element's number is too large, or there is no such list, or no column to drop",
            _ => "a number that this crate does not know",
        }
    }
}

impl fmt::Display for Refusal {
    fn fmt(&self, f: &mut fmt::Formatter<'_>) -> fmt::Result {
        write!(f, "refusal {} at {}: {}", self.number, self.place, self.what())
    }
}

impl core::error::Error for Refusal {}
