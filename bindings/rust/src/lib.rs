//! Reads and writes messages of the PostgreSQL wire protocol, version 3, in lent buffers, by the proved library Tusweram.
//!
//! A message borrows its parts from the caller's buffer (`&'a [u8]`). Nothing is copied but what an encoder writes, nothing is allocated,
//! and no input makes a call panic. The codec is proved; this crate only gives its numbers names, and all its `unsafe` code is in [`ffi`].
//!
//! ```
//! use tusweram::{decode, Decoded, Message, Mode};
//!
//! let stream = b"S\0\0\0\x04H\0\0\0\x04S\0";
//! let mut at = 0;
//! let mut seen = Vec::new();
//! let end = loop {
//!     match decode(Mode::Frontend, &stream[at..]) {
//!         Decoded::Record(message, consumed) => {
//!             seen.push(message);
//!             at += consumed;
//!         }
//!         Decoded::NeedMore => break "need-more",
//!         Decoded::Refused(refusal) => panic!("{refusal}"),
//!     }
//! };
//! assert_eq!(seen, [Message::Sync, Message::Flush]);
//! assert_eq!((end, at), ("need-more", 10));
//! ```
//!
//! [`encode`] writes messages, [`row_builder`] a row column by column, [`lists`] says what walking a list costs, [`refusal`] what the numbers
//! of refusals mean.

#![no_std]
#![deny(unsafe_code)]

pub mod encode;
#[allow(unsafe_code)]
pub mod ffi;
pub mod lists;
pub mod message;
mod numbers;
pub mod refusal;
pub mod row_builder;

pub use encode::{Encoded, FieldDescription, Span};
pub use lists::{ErrorField, ErrorFields, Field, Fields, Formats, Oids, Pairs, Values};
pub use message::*;
pub use refusal::Refusal;
pub use row_builder::RowBuilder;

use numbers::{half, part, sort};

/// What a buffer holds: messages of one side, a client's first packet, or the answer to a request for encryption.
#[derive(Clone, Copy, Debug, PartialEq, Eq, Hash)]
#[repr(u8)]
pub enum Mode {
    /// Messages that a client sends.
    Frontend = 0,
    /// Messages that a server sends.
    Backend = 1,
    /// A first packet that can only be a request to cancel.
    CancelRequest = 2,
    SslResponse = 3,
    GssEncResponse = 4,
    /// The packet that a connection begins with: a start-up packet, a request for encryption or a request to cancel. After the answer to a
    /// request for encryption the client sends another.
    FirstPacket = 5,
}

impl TryFrom<u8> for Mode {
    type Error = Refusal;

    /// The mode of a number from 0 to 5; any other number is refusal 1.
    fn try_from(number: u8) -> Result<Self, Refusal> {
        Ok(match number {
            0 => Mode::Frontend,
            1 => Mode::Backend,
            2 => Mode::CancelRequest,
            3 => Mode::SslResponse,
            4 => Mode::GssEncResponse,
            5 => Mode::FirstPacket,
            _ => return Err(Refusal { number: refusal::MODE_UNKNOWN, place: 0 }),
        })
    }
}

/// What decoding answers.
#[derive(Clone, Copy, Debug, PartialEq, Eq)]
pub enum Decoded<'a> {
    /// The message, and how many bytes its frame took.
    Record(Message<'a>, usize),
    /// The frame's end is not in the buffer yet: read more, and decode again from the same place.
    NeedMore,
    Refused(Refusal),
}

/// What an element call answers.
#[derive(Clone, Copy, Debug, PartialEq, Eq)]
pub enum Element<'a> {
    Oid(u32),
    Format(i16),
    Null,
    Value(&'a [u8]),
    Field(Field<'a>),
    ErrorField(ErrorField<'a>),
    /// A name and its value.
    Pair(&'a [u8], &'a [u8]),
    NeedMore,
    Refused(Refusal),
}

/// What reading a whole row answers.
#[derive(Clone, Copy, Debug, PartialEq, Eq)]
pub enum Row<'a> {
    /// The row's values, and how many bytes its frame took.
    Is(Values<'a>, usize),
    NeedMore,
    Refused(Refusal),
}

// An answer's status. What is none of the three is a refusal too, and a kind that this crate does not know is of an unknown type.
enum Status {
    There,
    NeedMore,
    Refused(Refusal),
}

const UNKNOWN: Refusal = Refusal { number: refusal::TYPE_UNKNOWN, place: 0 };

fn status(row: &ffi::Row) -> Status {
    let [status, number, place, ..] = *row;
    match status {
        0 => Status::There,
        1 => Status::NeedMore,
        _ => Status::Refused(Refusal { number: number as u8, place }),
    }
}

/// The first message of a buffer. Any bytes may follow it.
///
/// ```
/// use tusweram::{decode, Decoded, Message, Mode};
///
/// let buf = b"P\0\0\0\x15\0select $1\0\0\x01\0\0\0\x17";
/// match decode(Mode::Frontend, buf) {
///     Decoded::Record(Message::Parse(parse), consumed) => {
///         assert_eq!(parse.query, b"select $1");
///         assert!(parse.type_oids.iter().eq([23]));
///         assert_eq!(consumed, 22);
///     }
///     other => panic!("{other:?}"),
/// }
/// ```
pub fn decode(mode: Mode, buf: &[u8]) -> Decoded<'_> {
    let row = ffi::decode(mode as u8, buf);
    match status(&row) {
        Status::There => match Message::new(part(buf, 0, row[3]), &row) {
            Some(message) => Decoded::Record(message, row[3]),
            None => Decoded::Refused(UNKNOWN),
        },
        Status::NeedMore => Decoded::NeedMore,
        Status::Refused(refusal) => Decoded::Refused(refusal),
    }
}

/// An element of a list of the buffer's first message. Bind has lists 0 (parameter formats), 1 (values) and 2 (result formats); every other
/// kind with a list has list 0. Each call decodes the message anew: to read a whole list, walk it by its iterator.
///
/// ```
/// use tusweram::{element, Element, Mode};
///
/// let row = b"D\0\0\0\x10\0\x02\0\0\0\x02ab\xff\xff\xff\xff";
/// assert_eq!(element(Mode::Backend, row, 0, 0), Element::Value(b"ab"));
/// assert_eq!(element(Mode::Backend, row, 0, 1), Element::Null);
/// let Element::Refused(refusal) = element(Mode::Backend, row, 0, 2) else { panic!() };
/// assert_eq!(refusal.number, tusweram::refusal::NO_SUCH_ELEMENT);
/// ```
pub fn element(mode: Mode, buf: &[u8], list: usize, number: usize) -> Element<'_> {
    let row = ffi::element(mode as u8, buf, list, number);
    let [_, _, _, _, found, a, b, ..] = row;
    match status(&row) {
        Status::There => match found {
            sort::OID => Element::Oid(a as u32),
            sort::FORMAT => Element::Format(half(a)),
            sort::NULL => Element::Null,
            sort::VALUE => Element::Value(part(buf, a, b)),
            sort::FIELD => Element::Field(Field::new(buf, &row)),
            sort::ERROR_FIELD => Element::ErrorField(ErrorField::new(buf, &row)),
            sort::PAIR => {
                let (name, value) = lists::pair(buf, &row);
                Element::Pair(name, value)
            }
            _ => Element::Refused(UNKNOWN),
        },
        Status::NeedMore => Element::NeedMore,
        Status::Refused(refusal) => Element::Refused(refusal),
    }
}

/// The values of a DataRow, the buffer's first message, in one pass: value `i` has `lengths[i]` bytes from `starts[i]` on, and is NULL where
/// `lengths[i]` is -1. Later entries are kept. Refusal 9 where a slice has fewer entries than the row, 11 where the message is another.
///
/// ```
/// use tusweram::{data_row, Row};
///
/// let buf = b"D\0\0\0\x10\0\x02\0\0\0\x02ab\xff\xff\xff\xff";
/// let (mut starts, mut lengths) = ([0; 8], [0; 8]);
/// let Row::Is(values, 17) = data_row(buf, &mut starts, &mut lengths) else { panic!() };
/// assert_eq!(values.len(), 2);
/// assert_eq!((starts[0], lengths[0], lengths[1]), (11, 2, -1));
/// ```
pub fn data_row<'a>(buf: &'a [u8], starts: &mut [usize], lengths: &mut [i32]) -> Row<'a> {
    let row = ffi::data_row(buf, starts, lengths);
    let [_, _, _, consumed, _, start, count, ..] = row;
    match status(&row) {
        Status::There => Row::Is(Values::new(part(buf, 0, consumed), start, count), consumed),
        Status::NeedMore => Row::NeedMore,
        Status::Refused(refusal) => Row::Refused(refusal),
    }
}

/// The code of `bindings/README.md`, run by the tests.
#[cfg(doctest)]
#[doc = include_str!("../../README.md")]
pub struct Readme;
