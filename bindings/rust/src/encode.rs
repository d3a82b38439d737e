//! An encoder for each kind. It writes the frame at the start of `out`, answers how many bytes that is, and keeps every later byte; where it
//! refuses, nothing is written.
//!
//! - Refusal 10: what is given cannot be written: a text with a zero byte, a list with more elements than its count can say, and the like. A
//!   count of [`parse`], [`bind`] or [`parameter_description`] says up to 65,535, every other up to 32,767.
//! - Refusal 4: the frame would be above its kind's limit.
//! - Refusal 9: `out` is too short.
//!
//! Values are given as `lengths` (-1 for NULL) and their `joined` bytes, an error's fields as `codes`, `lengths` and `joined` texts, a
//! start-up packet's pairs as `lengths`, of names and values by turns, and `joined` texts.
//!
//! ```
//! use tusweram::encode;
//!
//! let mut out = [0; 64];
//! let n = encode::parse(b"", b"select $1", &[23], &mut out)?;
//! let m = encode::bind(b"", b"", &[], &[2, -1], b"42", &[], &mut out[n..])?;
//! let end = n + m + encode::sync(&mut out[n + m..])?;
//! assert_eq!(&out[..n], b"P\0\0\0\x15\0select $1\0\0\x01\0\0\0\x17");
//! assert_eq!(end, 22 + 23 + 5);
//! # Ok::<(), tusweram::Refusal>(())
//! ```

use crate::ffi::{self, Lists, Plain};
use crate::message::{kind, GssEncResponse, SslResponse};
use crate::Refusal;

/// What an encoder answers: the bytes written, or a refusal, whose place is 0.
pub type Encoded = Result<usize, Refusal>;

/// A part of the run of names.
#[repr(C)]
#[derive(Clone, Copy, Debug, Default, PartialEq, Eq)]
pub struct Span {
    pub start: usize,
    pub len: usize,
}

/// A field to be written by [`row_description`]; its name stands in the run of names.
#[repr(C)]
#[derive(Clone, Copy, Debug, Default, PartialEq, Eq)]
pub struct FieldDescription {
    pub name: Span,
    pub table_id: i32,
    pub column_id: i16,
    pub type_id: u32,
    pub type_size: i16,
    pub type_modifier: i32,
    pub format_code: i16,
}

// A refusal is answered as the largest number less the refusal's; no buffer is that long.
fn answer(n: usize) -> Encoded {
    match u8::try_from(usize::MAX - n) {
        Ok(number) => Err(Refusal { number, place: 0 }),
        Err(_) => Ok(n),
    }
}

fn plain(kind: usize, given: Plain<'_>, out: &mut [u8]) -> Encoded {
    answer(ffi::encode(kind, given, out))
}

fn bare(kind: usize, out: &mut [u8]) -> Encoded {
    plain(kind, Plain::default(), out)
}

fn lists(kind: usize, given: Lists<'_>, out: &mut [u8]) -> Encoded {
    answer(ffi::encode_lists(kind, given, out))
}

pub fn parse(name: &[u8], query: &[u8], type_oids: &[u32], out: &mut [u8]) -> Encoded {
    lists(kind::PARSE, Lists { one: name, two: query, words: type_oids, ..Lists::default() }, out)
}

/// The parameters come as `lengths` and `joined`.
pub fn bind(
    portal_name: &[u8],
    statement_name: &[u8],
    parameter_format_codes: &[i16],
    lengths: &[i32],
    joined: &[u8],
    result_column_format_codes: &[i16],
    out: &mut [u8],
) -> Encoded {
    let given = Lists {
        one: portal_name,
        two: statement_name,
        joined,
        lengths,
        formats: parameter_format_codes,
        results: result_column_format_codes,
        ..Lists::default()
    };
    lists(kind::BIND, given, out)
}

/// The target is `S` or `P`.
pub fn close(target_type: u8, name: &[u8], out: &mut [u8]) -> Encoded {
    plain(kind::CLOSE, Plain { byte: target_type, one: name, ..Plain::default() }, out)
}

/// The target is `S` or `P`.
pub fn describe(target_type: u8, name: &[u8], out: &mut [u8]) -> Encoded {
    plain(kind::DESCRIBE, Plain { byte: target_type, one: name, ..Plain::default() }, out)
}

pub fn execute(name: &[u8], max_rows: i32, out: &mut [u8]) -> Encoded {
    plain(kind::EXECUTE, Plain { first: max_rows, one: name, ..Plain::default() }, out)
}

pub fn flush(out: &mut [u8]) -> Encoded {
    bare(kind::FLUSH, out)
}

pub fn sync(out: &mut [u8]) -> Encoded {
    bare(kind::SYNC, out)
}

pub fn copy_done(out: &mut [u8]) -> Encoded {
    bare(kind::COPY_DONE, out)
}

pub fn copy_data(data: &[u8], out: &mut [u8]) -> Encoded {
    plain(kind::COPY_DATA, Plain { one: data, ..Plain::default() }, out)
}

pub fn copy_fail(message: &[u8], out: &mut [u8]) -> Encoded {
    plain(kind::COPY_FAIL, Plain { one: message, ..Plain::default() }, out)
}

pub fn parse_complete(out: &mut [u8]) -> Encoded {
    bare(kind::PARSE_COMPLETE, out)
}

pub fn bind_complete(out: &mut [u8]) -> Encoded {
    bare(kind::BIND_COMPLETE, out)
}

pub fn close_complete(out: &mut [u8]) -> Encoded {
    bare(kind::CLOSE_COMPLETE, out)
}

pub fn portal_suspended(out: &mut [u8]) -> Encoded {
    bare(kind::PORTAL_SUSPENDED, out)
}

pub fn no_data(out: &mut [u8]) -> Encoded {
    bare(kind::NO_DATA, out)
}

pub fn empty_query_response(out: &mut [u8]) -> Encoded {
    bare(kind::EMPTY_QUERY_RESPONSE, out)
}

/// Each field names its column by a part of `run`.
///
/// ```
/// use tusweram::encode::{row_description, FieldDescription, Span};
///
/// let field = FieldDescription { name: Span { start: 0, len: 2 }, type_id: 23, type_size: 4, type_modifier: -1, ..Default::default() };
/// let mut out = [0; 28];
/// assert_eq!(row_description(&[field], b"id", &mut out), Ok(28));
/// assert_eq!(&out, b"T\0\0\0\x1b\0\x01id\0\0\0\0\0\0\0\0\0\0\x17\0\x04\xff\xff\xff\xff\0\0");
/// ```
pub fn row_description(fields: &[FieldDescription], run: &[u8], out: &mut [u8]) -> Encoded {
    answer(ffi::encode_row_description(fields, run, out))
}

pub fn parameter_description(types: &[u32], out: &mut [u8]) -> Encoded {
    lists(kind::PARAMETER_DESCRIPTION, Lists { words: types, ..Lists::default() }, out)
}

pub fn data_row(lengths: &[i32], joined: &[u8], out: &mut [u8]) -> Encoded {
    lists(kind::DATA_ROW, Lists { lengths, joined, ..Lists::default() }, out)
}

pub fn command_complete(tag: &[u8], out: &mut [u8]) -> Encoded {
    plain(kind::COMMAND_COMPLETE, Plain { one: tag, ..Plain::default() }, out)
}

/// The status is `I`, `T` or `E`.
pub fn ready_for_query(status: u8, out: &mut [u8]) -> Encoded {
    plain(kind::READY_FOR_QUERY, Plain { byte: status, ..Plain::default() }, out)
}

pub fn error_response(codes: &[u8], lengths: &[u32], joined: &[u8], out: &mut [u8]) -> Encoded {
    lists(kind::ERROR_RESPONSE, Lists { one: codes, words: lengths, joined, ..Lists::default() }, out)
}

pub fn notice_response(codes: &[u8], lengths: &[u32], joined: &[u8], out: &mut [u8]) -> Encoded {
    lists(kind::NOTICE_RESPONSE, Lists { one: codes, words: lengths, joined, ..Lists::default() }, out)
}

pub fn copy_in_response(format: i8, column_formats: &[i16], out: &mut [u8]) -> Encoded {
    lists(kind::COPY_IN_RESPONSE, Lists { format, formats: column_formats, ..Lists::default() }, out)
}

pub fn copy_out_response(format: i8, column_formats: &[i16], out: &mut [u8]) -> Encoded {
    lists(kind::COPY_OUT_RESPONSE, Lists { format, formats: column_formats, ..Lists::default() }, out)
}

pub fn copy_both_response(format: i8, column_formats: &[i16], out: &mut [u8]) -> Encoded {
    lists(kind::COPY_BOTH_RESPONSE, Lists { format, formats: column_formats, ..Lists::default() }, out)
}

pub fn notification_response(pid: i32, channel: &[u8], payload: &[u8], out: &mut [u8]) -> Encoded {
    plain(kind::NOTIFICATION_RESPONSE, Plain { first: pid, one: channel, two: payload, ..Plain::default() }, out)
}

pub fn cancel_request(pid: i32, secret_key: i32, out: &mut [u8]) -> Encoded {
    plain(kind::CANCEL_REQUEST, Plain { first: pid, second: secret_key, ..Plain::default() }, out)
}

pub fn ssl_response(response: SslResponse, out: &mut [u8]) -> Encoded {
    plain(kind::SSL_RESPONSE, Plain { byte: response as u8, ..Plain::default() }, out)
}

pub fn gss_enc_response(response: GssEncResponse, out: &mut [u8]) -> Encoded {
    plain(kind::GSS_ENC_RESPONSE, Plain { byte: response as u8, ..Plain::default() }, out)
}

/// The pairs come as `lengths`, of a name and its value by turns, and `joined`; a name is not empty. The protocol is 3.0.
///
/// ```
/// use tusweram::encode;
///
/// let mut out = [0; 32];
/// assert_eq!(encode::startup(&[4, 3], b"userbob", &mut out), Ok(18));
/// assert_eq!(&out[..18], b"\0\0\0\x12\0\x03\0\0user\0bob\0\0");
/// ```
pub fn startup(lengths: &[u32], joined: &[u8], out: &mut [u8]) -> Encoded {
    lists(kind::STARTUP, Lists { words: lengths, joined, ..Lists::default() }, out)
}

pub fn ssl_request(out: &mut [u8]) -> Encoded {
    bare(kind::SSL_REQUEST, out)
}

pub fn gss_enc_request(out: &mut [u8]) -> Encoded {
    bare(kind::GSS_ENC_REQUEST, out)
}

pub fn query(query: &[u8], out: &mut [u8]) -> Encoded {
    plain(kind::QUERY, Plain { one: query, ..Plain::default() }, out)
}

pub fn terminate(out: &mut [u8]) -> Encoded {
    bare(kind::TERMINATE, out)
}

pub fn parameter_status(name: &[u8], value: &[u8], out: &mut [u8]) -> Encoded {
    plain(kind::PARAMETER_STATUS, Plain { one: name, two: value, ..Plain::default() }, out)
}

pub fn backend_key_data(pid: i32, secret_key: i32, out: &mut [u8]) -> Encoded {
    plain(kind::BACKEND_KEY_DATA, Plain { first: pid, second: secret_key, ..Plain::default() }, out)
}
