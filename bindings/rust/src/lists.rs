//! The lists of a message. Each is a few words; its iterator reads one element at each step and copies no bytes.
//!
//! | list | what a step costs |
//! |---|---|
//! | [`Oids`], [`Formats`] | one number read from the buffer, at a place that the library gave |
//! | [`Values`] | one call, which reads the value's length |
//! | [`Fields`], [`ErrorFields`] | one call, which reads the field's text to its zero byte, and its numbers |
//! | [`Pairs`] | one call, which reads the name and the value to their zero bytes |
//!
//! A step begins at the place where the last one ended: a whole list is linear in its elements, and of fields and pairs in their bytes.

use core::fmt;
use core::iter::FusedIterator;

use crate::ffi;
use crate::numbers::{half, part, sort, word};

/// Object ids of types.
#[derive(Clone, Copy)]
pub struct Oids<'a> {
    bytes: &'a [u8],
}

/// Format codes: 0 text, 1 binary, and any other number, whose meaning is not looked at.
#[derive(Clone, Copy)]
pub struct Formats<'a> {
    bytes: &'a [u8],
}

/// Values of a row or of a Bind: `None` is NULL, `Some(b"")` an empty value.
///
/// ```
/// use tusweram::{decode, Decoded, Message, Mode};
///
/// let row = b"D\0\0\0\x10\0\x02\0\0\0\x02ab\xff\xff\xff\xff";
/// let Decoded::Record(Message::DataRow(row), 17) = decode(Mode::Backend, row) else { panic!() };
/// assert_eq!(row.data.len(), 2);
/// assert!(row.data.iter().eq([Some(&b"ab"[..]), None]));
/// ```
#[derive(Clone, Copy)]
pub struct Values<'a>(Walk<'a>);

/// Fields of a RowDescription.
#[derive(Clone, Copy)]
pub struct Fields<'a>(Walk<'a>);

/// Fields of an error or a notice.
#[derive(Clone, Copy)]
pub struct ErrorFields<'a>(Walk<'a>);

/// A start-up packet's pairs of a name and a value, in the order of the packet; a name may stand there more than once.
///
/// ```
/// use tusweram::{decode, Decoded, Message, Mode};
///
/// let packet = b"\0\0\0\x12\0\x03\0\0user\0bob\0\0";
/// let Decoded::Record(Message::Startup(startup), 18) = decode(Mode::FirstPacket, packet) else { panic!() };
/// assert!(startup.parameters.iter().eq([(&b"user"[..], &b"bob"[..])]));
/// assert_eq!(startup.parameters.value(b"user"), Some(&b"bob"[..]));
/// ```
#[derive(Clone, Copy)]
pub struct Pairs<'a>(Walk<'a>);

/// One field of a RowDescription.
#[derive(Clone, Copy, Debug, PartialEq, Eq)]
pub struct Field<'a> {
    pub name: &'a [u8],
    pub table_id: i32,
    pub column_id: i16,
    pub type_id: u32,
    pub type_size: i16,
    pub type_modifier: i32,
    pub format_code: i16,
}

/// One field of an error or a notice: its code byte, as `b'S'` for the severity, and its text.
#[derive(Clone, Copy, Debug, PartialEq, Eq)]
pub struct ErrorField<'a> {
    pub code: u8,
    pub text: &'a [u8],
}

/// An iterator over [`Oids`].
#[derive(Clone)]
pub struct OidsIter<'a>(core::slice::ChunksExact<'a, u8>);

/// An iterator over [`Formats`].
#[derive(Clone)]
pub struct FormatsIter<'a>(core::slice::ChunksExact<'a, u8>);

/// An iterator over [`Values`].
#[derive(Clone)]
pub struct ValuesIter<'a>(Walk<'a>);

/// An iterator over [`Fields`].
#[derive(Clone)]
pub struct FieldsIter<'a>(Walk<'a>);

/// An iterator over [`ErrorFields`].
#[derive(Clone)]
pub struct ErrorFieldsIter<'a>(Walk<'a>);

/// An iterator over [`Pairs`].
#[derive(Clone)]
pub struct PairsIter<'a>(Walk<'a>);

// The elements of a list from a place on, as many as are left of its count.
#[derive(Clone, Copy)]
struct Walk<'a> {
    frame: &'a [u8],
    at: usize,
    left: usize,
}

impl Walk<'_> {
    // One call, which answers the element and the next place.
    fn step(&mut self, read: fn(&[u8], usize) -> ffi::Row) -> Option<ffi::Row> {
        if self.left == 0 {
            return None;
        }
        let row = read(self.frame, self.at);
        let [status, _, _, next, ..] = row;
        // Of a decoded frame every element is there; the other end is for archives that are others than the crate's.
        self.left = if status == 0 { self.left - 1 } else { 0 };
        self.at = next;
        (status == 0).then_some(row)
    }
}

impl<'a> Oids<'a> {
    pub(crate) fn new(frame: &'a [u8], start: usize, count: usize) -> Self {
        Oids { bytes: part(frame, start, count.saturating_mul(4)) }
    }

    /// How many there are.
    pub fn len(&self) -> usize {
        self.bytes.len() / 4
    }

    pub fn iter(&self) -> OidsIter<'a> {
        OidsIter(self.bytes.chunks_exact(4))
    }
}

impl<'a> Formats<'a> {
    pub(crate) fn new(frame: &'a [u8], start: usize, count: usize) -> Self {
        Formats { bytes: part(frame, start, count.saturating_mul(2)) }
    }

    /// How many there are.
    pub fn len(&self) -> usize {
        self.bytes.len() / 2
    }

    pub fn iter(&self) -> FormatsIter<'a> {
        FormatsIter(self.bytes.chunks_exact(2))
    }
}

impl<'a> ErrorFields<'a> {
    /// The text of the first field with a code, as `b'M'` for the message.
    pub fn text(&self, code: u8) -> Option<&'a [u8]> {
        self.iter().find(|field| field.code == code).map(|field| field.text)
    }
}

impl<'a> Pairs<'a> {
    /// The value of a name; of a name that stands there more than once the last one, as a server takes it.
    pub fn value(&self, name: &[u8]) -> Option<&'a [u8]> {
        self.iter().filter(|pair| pair.0 == name).last().map(|pair| pair.1)
    }
}

impl<'a> Field<'a> {
    pub(crate) fn new(frame: &'a [u8], row: &ffi::Row) -> Self {
        let [_, _, _, _, _, start, len, table, column, type_id, size, modifier, format, ..] = *row;
        Field {
            name: part(frame, start, len),
            table_id: word(table),
            column_id: half(column),
            type_id: type_id as u32,
            type_size: half(size),
            type_modifier: word(modifier),
            format_code: half(format),
        }
    }
}

impl<'a> ErrorField<'a> {
    pub(crate) fn new(frame: &'a [u8], row: &ffi::Row) -> Self {
        let [_, _, _, _, _, code, start, len, ..] = *row;
        ErrorField { code: code as u8, text: part(frame, start, len) }
    }
}

fn value<'a>(frame: &'a [u8], row: &ffi::Row) -> Option<&'a [u8]> {
    let [_, _, _, _, found, start, len, ..] = *row;
    (found == sort::VALUE).then(|| part(frame, start, len))
}

pub(crate) fn pair<'a>(frame: &'a [u8], row: &ffi::Row) -> (&'a [u8], &'a [u8]) {
    let [_, _, _, _, _, name, name_len, value, value_len, ..] = *row;
    (part(frame, name, name_len), part(frame, value, value_len))
}

impl<'a> Iterator for OidsIter<'a> {
    type Item = u32;

    fn next(&mut self) -> Option<u32> {
        let bytes = self.0.next()?;
        Some(u32::from_be_bytes(bytes.try_into().ok()?))
    }

    fn size_hint(&self) -> (usize, Option<usize>) {
        self.0.size_hint()
    }
}

impl<'a> Iterator for FormatsIter<'a> {
    type Item = i16;

    fn next(&mut self) -> Option<i16> {
        let bytes = self.0.next()?;
        Some(i16::from_be_bytes(bytes.try_into().ok()?))
    }

    fn size_hint(&self) -> (usize, Option<usize>) {
        self.0.size_hint()
    }
}

// What all lists have: a loop over them, a comparison by elements, and their elements printed.
macro_rules! list {
    ($list:ident, $iter:ident, $item:ty) => {
        impl<'a> $list<'a> {
            pub fn is_empty(&self) -> bool {
                self.len() == 0
            }
        }

        impl<'a> IntoIterator for $list<'a> {
            type Item = $item;
            type IntoIter = $iter<'a>;

            fn into_iter(self) -> $iter<'a> {
                self.iter()
            }
        }

        impl ExactSizeIterator for $iter<'_> {}

        impl FusedIterator for $iter<'_> {}

        impl PartialEq for $list<'_> {
            fn eq(&self, other: &Self) -> bool {
                self.iter().eq(other.iter())
            }
        }

        impl Eq for $list<'_> {}

        impl fmt::Debug for $list<'_> {
            fn fmt(&self, f: &mut fmt::Formatter<'_>) -> fmt::Result {
                f.debug_list().entries(self.iter()).finish()
            }
        }
    };
}

list!(Oids, OidsIter, u32);
list!(Formats, FormatsIter, i16);

// A list that is walked by a call for each element, with what is made of the call's answer.
macro_rules! walked {
    ($list:ident, $iter:ident, $item:ty, $read:path, $made:expr) => {
        impl<'a> $list<'a> {
            pub(crate) fn new(frame: &'a [u8], start: usize, count: usize) -> Self {
                $list(Walk { frame, at: start, left: count })
            }

            /// How many there are.
            pub fn len(&self) -> usize {
                self.0.left
            }

            pub fn iter(&self) -> $iter<'a> {
                $iter(self.0)
            }
        }

        impl<'a> Iterator for $iter<'a> {
            type Item = $item;

            fn next(&mut self) -> Option<$item> {
                let row = self.0.step($read)?;
                Some($made(self.0.frame, &row))
            }

            fn size_hint(&self) -> (usize, Option<usize>) {
                (self.0.left, Some(self.0.left))
            }
        }

        list!($list, $iter, $item);
    };
}

walked!(Values, ValuesIter, Option<&'a [u8]>, ffi::value, value);
walked!(Fields, FieldsIter, Field<'a>, ffi::field, Field::new);
walked!(ErrorFields, ErrorFieldsIter, ErrorField<'a>, ffi::error_field, ErrorField::new);
walked!(Pairs, PairsIter, (&'a [u8], &'a [u8]), ffi::pair, pair);
