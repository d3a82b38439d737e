//! The Rattle library, by the numbers at its boundary: the binding for Rust declares its functions.

use crate::model::{numbered, Building, Given, Kind, Part, RowFieldGiven, Step};
use tusweram::ffi::{self, Lists, Plain, Row};
use tusweram::{FieldDescription, Span};

pub use tusweram::ffi::{data_row, decode, element, field, pair, row_append, row_append_null, row_begin, row_drop_last, row_finish, value};

/// The item at a place of a frame, of a list whose items have no fixed size.
pub fn item(list: Part, frame: &[u8], at: usize) -> Row {
    match list {
        Part::Values => ffi::value(frame, at),
        Part::RowFields => ffi::field(frame, at),
        Part::Errors => ffi::error_field(frame, at),
        Part::Pairs => ffi::pair(frame, at),
        _ => panic!("no call reads an item of {list:?}"),
    }
}

/// The calls that write: `tusweram_encode`, `tusweram_encode_lists` and `tusweram_encode_row_description`.
#[derive(Clone, Copy, PartialEq, Eq, Debug)]
pub enum Call {
    Plain,
    Lists,
    RowDescription,
}

/// The call that writes a kind: by whether its body has a list, and of what.
pub fn call(kind: &Kind) -> Call {
    if kind.has(&[Part::RowFields]) {
        Call::RowDescription
    } else if kind.has(&[Part::Oids, Part::Formats, Part::Values, Part::Errors, Part::Pairs]) {
        Call::Lists
    } else {
        Call::Plain
    }
}

/// The bytes written, or the refusal's number.
pub fn encode(g: &Given, out: &mut [u8]) -> Result<usize, u8> {
    let written = prepared(g)(out);
    match usize::MAX - written {
        n @ 1..=11 => Err(n as u8),
        _ => Ok(written),
    }
}

/// The call that writes what is given, with its arguments at hand.
pub fn prepared(g: &Given) -> Box<dyn Fn(&mut [u8]) -> usize + '_> {
    let text = |i: usize| g.texts.get(i).map(Vec::as_slice).unwrap_or(&[]);
    let number = |i: usize| g.numbers.get(i).copied().unwrap_or(0);
    let (kind, one, two) = (g.kind as usize, text(0), text(1));
    match call(numbered(g.kind)) {
        Call::RowDescription => {
            let fields: Vec<_> = g.row_fields.iter().map(field_description).collect();
            Box::new(move |out| ffi::encode_row_description(&fields, &g.joined, out))
        }
        Call::Lists => {
            // an error's codes stand where other kinds have a text, and its lengths or those of pairs where they have oids
            let errors = numbered(g.kind).has(&[Part::Errors]);
            let sized = errors || numbered(g.kind).has(&[Part::Pairs]);
            let lists = Lists {
                format: number(0) as i8,
                one: if errors { &g.codes } else { one },
                two,
                joined: &g.joined,
                words: if sized { &g.sizes } else { &g.oids },
                lengths: &g.lengths,
                formats: &g.formats,
                results: &g.results,
            };
            Box::new(move |out| ffi::encode_lists(kind, lists, out))
        }
        // a target, a status or an answer stands where there is no other number
        Call::Plain => {
            let plain = Plain { byte: number(0) as u8, first: number(0) as i32, second: number(1) as i32, one, two };
            Box::new(move |out| ffi::encode(kind, plain, out))
        }
    }
}

fn field_description(f: &RowFieldGiven) -> FieldDescription {
    FieldDescription {
        name: Span { start: f.start, len: f.len },
        table_id: f.table_id,
        column_id: f.column_id,
        type_id: f.type_id,
        type_size: f.type_size,
        type_modifier: f.type_modifier,
        format_code: f.format_code,
    }
}

/// A call of a row that is built: 0, or the refusal's number.
pub fn step(call: &Step, row: &mut Building, room: &mut [u8]) -> u8 {
    match call {
        Step::Begin => row_begin(row, room),
        Step::Append(Some(value)) => row_append(row, room, value),
        Step::Append(None) => row_append_null(row, room),
        Step::DropLast => row_drop_last(row, room),
        Step::Finish => row_finish(row, room),
    }
}
