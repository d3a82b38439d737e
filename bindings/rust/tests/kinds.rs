//! Every kind: bytes by hand from docs/FORMAT.md, the encoder that writes them, the message that they are, the numbers at the boundary, its
//! longest lists, and what the encoder refuses of each text, list and byte.

mod common;

use common::kinds::walked;
use common::{cannot, cuts_wait, round_trip, same_row, set_length};
use tusweram::*;

/// A length has one of two limits, and a count, signed or unsigned, can say one of two numbers of elements at most.
const SMALL: usize = 8192;
const LARGE: usize = 1048576;
const SIGNED: usize = 32767;
const UNSIGNED: usize = 65535;

/// `numbers` are those from the fifth on: the kind's number and its fields'.
fn kind<'a>(mode: Mode, frame: &'a [u8], numbers: &[usize], write: impl Fn(&mut [u8]) -> Encoded) -> Message<'a> {
    let mut row = [0; 16];
    row[3] = frame.len();
    row[4..4 + numbers.len()].copy_from_slice(numbers);
    assert_eq!(ffi::decode(mode as u8, frame), row);
    let mut out = [0x55; 128];
    assert_eq!(write(&mut out), Ok(frame.len()));
    assert_eq!(&out[..frame.len()], frame);
    assert!(out[frame.len()..].iter().all(|byte| *byte == 0x55));
    cuts_wait(mode, frame);
    round_trip(mode, frame)
}

/// Bytes that an encoder takes: what the kind's limit leaves room for is written, and more is refusal 4, also where there is no output.
fn limited(limit: usize, write: impl Fn(&[u8], &mut [u8]) -> Encoded) {
    let bytes = vec![b'a'; limit];
    let mut out = vec![0; 2 * limit];
    let room = limit + 1 - write(b"", &mut out).unwrap();
    assert_eq!(write(&bytes[..room], &mut out), Ok(limit + 1));
    out.fill(0);
    // a byte too many, and as many as are too long with nothing beside them
    for n in [room + 1, limit - 3] {
        cannot(4, write(&bytes[..n], &mut out));
        cannot(4, write(&bytes[..n], &mut []));
    }
    assert!(out.iter().all(|byte| *byte == 0));
}

/// A text: the same, and refusal 10 where it has a zero byte.
fn text(limit: usize, write: impl Fn(&[u8], &mut [u8]) -> Encoded) {
    limited(limit, &write);
    let mut out = [0; 64];
    for text in [&b"\0"[..], b"a\0", b"a\0b"] {
        cannot(10, write(text, &mut out));
    }
    assert_eq!(out, [0; 64]);
}

/// Elements of a long list, each of which tells its number: the bytes of one, and what is read as element `i`.
struct Elements {
    bytes: usize,
    read: fn(usize) -> Element<'static>,
}

const OIDS: Elements = Elements { bytes: 4, read: |i| Element::Oid(oid(i)) };
const FORMATS: Elements = Elements { bytes: 2, read: |i| Element::Format(format_code(i)) };
const VALUES: Elements = Elements { bytes: 4, read: |i| if length(i) < 0 { Element::Null } else { Element::Value(b"") } };
const FIELDS: Elements = Elements { bytes: 21, read: |i| Element::Field(field_read(i)) };

fn oid(i: usize) -> u32 {
    u32::MAX - i as u32
}

fn format_code(i: usize) -> i16 {
    i as i16
}

fn length(i: usize) -> i32 {
    if i % 3 == 0 {
        -1
    } else {
        0
    }
}

/// Its name is the run `id`.
fn field(i: usize) -> FieldDescription {
    FieldDescription { name: Span { start: 0, len: 2 }, table_id: i as i32, ..FieldDescription::default() }
}

fn field_read(i: usize) -> Field<'static> {
    Field { name: b"id", table_id: i as i32, column_id: 0, type_id: 0, type_size: 0, type_modifier: 0, format_code: 0 }
}

fn many<T>(n: usize, one: fn(usize) -> T) -> Vec<T> {
    (0..n).map(one).collect()
}

/// The list of that number has just these elements, read in one pass, and the last is the element call's last.
fn has(mode: Mode, frame: &[u8], number: usize, n: usize, elements: &Elements) {
    let Decoded::Record(message, consumed) = decode(mode, frame) else { panic!("{n} elements are not read") };
    assert_eq!(consumed, frame.len());
    assert!(walked(&message)[number].iter().copied().eq((0..n).map(elements.read)), "{n} elements");
    assert_eq!(element(mode, frame, number, n - 1), (elements.read)(n - 1));
    assert_eq!(element(mode, frame, number, n), Element::Refused(Refusal { number: refusal::NO_SUCH_ELEMENT, place: 0 }));
    if let Message::DataRow(row) = message {
        same_row(frame, &row);
    }
}

/// A list, by its number among the kind's: up to `most` elements are written, and read again as they were given. One more is refusal 4 where the
/// kind's limit leaves no room for it, and more than its count can say are 10.
fn list(most: usize, mode: Mode, number: usize, elements: Elements, write: impl Fn(usize, &mut [u8]) -> Encoded) {
    let mut out = vec![0; LARGE];
    let empty = write(0, &mut out).unwrap();
    for n in [SIGNED, SIGNED + 1].into_iter().filter(|n| *n < most).chain([most]) {
        let size = empty + n * elements.bytes;
        assert_eq!(write(n, &mut out), Ok(size));
        has(mode, &out[..size], number, n, &elements);
    }
    out.fill(0);
    if most < SIGNED {
        cannot(4, write(most + 1, &mut out));
    }
    cannot(10, write(most.max(SIGNED) + 1, &mut out));
    assert!(out.iter().all(|byte| *byte == 0));
}

/// A byte that is one of some: any other is refusal 10.
fn one_of(bytes: &[u8], write: impl Fn(u8, &mut [u8]) -> Encoded) {
    let mut out = [0; 64];
    for byte in (0..=255).filter(|byte| !bytes.contains(byte)) {
        cannot(10, write(byte, &mut out));
    }
    assert_eq!(out, [0; 64]);
    assert!(bytes.iter().all(|byte| write(*byte, &mut out).is_ok()));
}

#[test]
fn parse() {
    let frame = b"P\0\0\0\x17n\0select\0\0\x02\0\0\0\x17\xff\xff\xff\xfe";
    let numbers = [1, 5, 1, 7, 6, 16, 2];
    let m = kind(Mode::Frontend, &frame[..], &numbers, |out| encode::parse(b"n", b"select", &[23, 4294967294], out));
    let Message::Parse(m) = m else { panic!("{m:?}") };
    assert_eq!((m.name, m.query), (&b"n"[..], &b"select"[..]));
    assert!(m.type_oids.iter().eq([23, 4294967294]));
    assert_eq!((m.type_oids.len(), m.type_oids.is_empty(), m.type_oids.iter().len()), (2, false, 2));
    text(LARGE, |name, out| encode::parse(name, b"", &[], out));
    text(LARGE, |query, out| encode::parse(b"", query, &[], out));
    list(UNSIGNED, Mode::Frontend, 0, OIDS, |n, out| encode::parse(b"", b"", &many(n, oid), out));
}

#[test]
fn bind() {
    let frame = b"B\0\0\0\x23p\0st\0\0\x02\0\x01\xff\xff\0\x03\0\0\0\x02ab\xff\xff\xff\xff\0\0\0\0\0\x01\0\x01";
    let numbers = [2, 5, 1, 7, 2, 12, 2, 18, 3, 34, 1];
    let m = kind(Mode::Frontend, &frame[..], &numbers, |out| encode::bind(b"p", b"st", &[1, -1], &[2, -1, 0], b"ab", &[1], out));
    let Message::Bind(m) = m else { panic!("{m:?}") };
    assert_eq!((m.portal_name, m.statement_name), (&b"p"[..], &b"st"[..]));
    assert!(m.parameter_format_codes.iter().eq([1, -1]));
    assert!(m.parameters.iter().eq([Some(&b"ab"[..]), None, Some(b"")]));
    assert_eq!((m.parameters.len(), m.parameters.iter().len()), (3, 3));
    assert!(m.result_column_format_codes.iter().eq([1]));
    text(LARGE, |portal, out| encode::bind(portal, b"", &[], &[], b"", &[], out));
    text(LARGE, |statement, out| encode::bind(b"", statement, &[], &[], b"", &[], out));
    limited(LARGE, |value, out| encode::bind(b"", b"", &[], &[value.len() as i32], value, &[], out));
    list(UNSIGNED, Mode::Frontend, 0, FORMATS, |n, out| encode::bind(b"", b"", &many(n, format_code), &[], b"", &[], out));
    list(UNSIGNED, Mode::Frontend, 1, VALUES, |n, out| encode::bind(b"", b"", &[], &many(n, length), b"", &[], out));
    list(UNSIGNED, Mode::Frontend, 2, FORMATS, |n, out| encode::bind(b"", b"", &[], &[], b"", &many(n, format_code), out));
}

#[test]
fn bind_of_one_null() {
    let frame = b"B\0\0\0\x10\0\0\0\0\0\x01\xff\xff\xff\xff\0\0";
    let numbers = [2, 5, 0, 6, 0, 9, 0, 11, 1, 17, 0];
    let m = kind(Mode::Frontend, &frame[..], &numbers, |out| encode::bind(b"", b"", &[], &[-1], b"", &[], out));
    let Message::Bind(m) = m else { panic!("{m:?}") };
    assert!(m.parameters.iter().eq([None]));
    assert!(m.parameter_format_codes.is_empty() && m.result_column_format_codes.is_empty());
}

/// Device numbers, of which each seventh is not known.
#[test]
fn bind_of_40000_values() {
    let given: Vec<_> = (0..40000).map(|i| (i % 7 != 0).then(|| i.to_string().into_bytes())).collect();
    let lengths: Vec<_> = given.iter().map(|value| value.as_ref().map_or(-1, |value| value.len() as i32)).collect();
    let mut frame = b"B\0\0\0\0\0\0\0\0\x9c\x40".to_vec();
    for (length, value) in lengths.iter().zip(&given) {
        frame.extend_from_slice(&length.to_be_bytes());
        frame.extend_from_slice(value.as_deref().unwrap_or_default());
    }
    frame.extend_from_slice(b"\0\0");
    set_length(Mode::Frontend, &mut frame);

    let joined: Vec<_> = given.iter().flatten().flatten().copied().collect();
    let mut out = vec![0; frame.len()];
    assert_eq!(encode::bind(b"", b"", &[], &lengths, &joined, &[], &mut out), Ok(frame.len()));
    assert!(out == frame);
    let Decoded::Record(Message::Bind(m), consumed) = decode(Mode::Frontend, &frame) else { panic!("no Bind") };
    assert_eq!((consumed, m.parameters.len()), (frame.len(), 40000));
    assert!(m.parameters.iter().eq(given.iter().map(|value| value.as_deref())));
    for number in [0, 1, 32766, 32767, 32768, 39998, 39999] {
        let value = given[number].as_deref().map_or(Element::Null, Element::Value);
        assert_eq!(element(Mode::Frontend, &frame, 1, number), value);
    }
}

#[test]
fn close_and_describe() {
    let m = kind(Mode::Frontend, b"C\0\0\0\x08Sab\0", &[3, 83, 6, 2], |out| encode::close(b'S', b"ab", out));
    assert_eq!(m, Message::Close(Close { target_type: TARGET_TYPE_BYTE_STATEMENT, name: b"ab" }));
    let m = kind(Mode::Frontend, b"D\0\0\0\x06P\0", &[4, 80, 6, 0], |out| encode::describe(b'P', b"", out));
    assert_eq!(m, Message::Describe(Describe { target_type: TARGET_TYPE_BYTE_PORTAL, name: b"" }));
    for target in [TARGET_TYPE_BYTE_STATEMENT, TARGET_TYPE_BYTE_PORTAL] {
        text(SMALL, |name, out| encode::close(target, name, out));
        text(SMALL, |name, out| encode::describe(target, name, out));
    }
    one_of(b"SP", |target, out| encode::close(target, b"", out));
    one_of(b"SP", |target, out| encode::describe(target, b"", out));
}

#[test]
fn execute() {
    let m = kind(Mode::Frontend, b"E\0\0\0\x0ap\0\0\0\x01\0", &[5, 5, 1, 256], |out| encode::execute(b"p", 256, out));
    assert_eq!(m, Message::Execute(Execute { name: b"p", max_rows: 256 }));
    let numbers = [5, 5, 0, 4294967294];
    let m = kind(Mode::Frontend, b"E\0\0\0\x09\0\xff\xff\xff\xfe", &numbers, |out| encode::execute(b"", -2, out));
    assert_eq!(m, Message::Execute(Execute { name: b"", max_rows: -2 }));
    text(SMALL, |name, out| encode::execute(name, 0, out));
}

#[test]
fn kinds_without_fields() {
    type Writer = fn(&mut [u8]) -> Encoded;
    let table: &[(Mode, u8, usize, Writer, Message)] = &[
        (Mode::Frontend, b'H', 6, encode::flush, Message::Flush),
        (Mode::Frontend, b'S', 7, encode::sync, Message::Sync),
        (Mode::Frontend, b'c', 8, encode::copy_done, Message::CopyDone),
        (Mode::Backend, b'c', 8, encode::copy_done, Message::CopyDone),
        (Mode::Backend, b'1', 11, encode::parse_complete, Message::ParseComplete),
        (Mode::Backend, b'2', 12, encode::bind_complete, Message::BindComplete),
        (Mode::Backend, b'3', 13, encode::close_complete, Message::CloseComplete),
        (Mode::Backend, b's', 14, encode::portal_suspended, Message::PortalSuspended),
        (Mode::Backend, b'n', 15, encode::no_data, Message::NoData),
        (Mode::Backend, b'I', 16, encode::empty_query_response, Message::EmptyQueryResponse),
        (Mode::Frontend, b'X', 35, encode::terminate, Message::Terminate),
    ];
    for &(mode, byte, number, write, message) in table {
        assert_eq!(kind(mode, &[byte, 0, 0, 0, 4], &[number], write), message);
    }
}

#[test]
fn copy_data() {
    for mode in [Mode::Frontend, Mode::Backend] {
        let m = kind(mode, b"d\0\0\0\x07a\0b", &[9, 5, 3], |out| encode::copy_data(b"a\0b", out));
        assert_eq!(m, Message::CopyData(CopyData { data: b"a\0b" }));
        let m = kind(mode, b"d\0\0\0\x04", &[9, 5, 0], |out| encode::copy_data(b"", out));
        assert_eq!(m, Message::CopyData(CopyData { data: b"" }));
    }
    limited(LARGE, encode::copy_data);
}

#[test]
fn copy_fail() {
    let m = kind(Mode::Frontend, b"f\0\0\0\x08why\0", &[10, 5, 3], |out| encode::copy_fail(b"why", out));
    assert_eq!(m, Message::CopyFail(CopyFail { message: b"why" }));
    text(SMALL, encode::copy_fail);
}

#[test]
fn row_description() {
    let mut frame = b"T\0\0\0\x2f\0\x02id\0\x80\0\0\0\0\x03\0\0\0\x17\0\x04\xff\xff\xff\xff\0\x01".to_vec();
    frame.extend_from_slice(b"n\0\0\0\x40\x01\xff\xfe\xff\xff\xff\xff\xff\xff\0\0\0\x0e\xff\xff");
    // the names stand in any order in the run, and may share bytes
    let fields = [
        FieldDescription {
            name: Span { start: 1, len: 2 },
            table_id: i32::MIN,
            column_id: 3,
            type_id: 23,
            type_size: 4,
            type_modifier: -1,
            format_code: 1,
        },
        FieldDescription {
            name: Span { start: 0, len: 1 },
            table_id: 16385,
            column_id: -2,
            type_id: u32::MAX,
            type_size: -1,
            type_modifier: 14,
            format_code: -1,
        },
    ];
    let m = kind(Mode::Backend, &frame, &[17, 7, 2], |out| encode::row_description(&fields, b"nid", out));
    let Message::RowDescription(m) = m else { panic!("{m:?}") };
    let first = Field { name: b"id", table_id: i32::MIN, column_id: 3, type_id: 23, type_size: 4, type_modifier: -1, format_code: 1 };
    let second = Field { name: b"n", table_id: 16385, column_id: -2, type_id: u32::MAX, type_size: -1, type_modifier: 14, format_code: -1 };
    assert!(m.fields.iter().eq([first, second]));
    assert_eq!((m.fields.len(), m.fields.iter().len()), (2, 2));
    kind(Mode::Backend, b"T\0\0\0\x06\0\0", &[17, 7, 0], |out| encode::row_description(&[], b"", out));
}

#[test]
fn a_name_and_the_fields_of_a_row_description() {
    text(LARGE, |name, out| {
        let field = FieldDescription { name: Span { start: 0, len: name.len() }, ..FieldDescription::default() };
        encode::row_description(&[field], name, out)
    });
    list(SIGNED, Mode::Backend, 0, FIELDS, |n, out| encode::row_description(&many(n, field), b"id", out));
}

#[test]
fn parameter_description() {
    let frame = b"t\0\0\0\x0e\0\x02\0\0\0\x19\x80\0\0\0";
    let m = kind(Mode::Backend, &frame[..], &[18, 7, 2], |out| encode::parameter_description(&[25, 2147483648], out));
    let Message::ParameterDescription(m) = m else { panic!("{m:?}") };
    assert!(m.types.iter().eq([25, 2147483648]));
    list(UNSIGNED, Mode::Backend, 0, OIDS, |n, out| encode::parameter_description(&many(n, oid), out));
}

#[test]
fn a_data_row() {
    let frame = b"D\0\0\0\x10\0\x02\0\0\0\x02ab\xff\xff\xff\xff";
    let m = kind(Mode::Backend, &frame[..], &[19, 7, 2], |out| encode::data_row(&[2, -1], b"ab", out));
    let Message::DataRow(m) = m else { panic!("{m:?}") };
    assert!(m.data.iter().eq([Some(&b"ab"[..]), None]));
    // a part of the caller's buffer itself
    assert_eq!(m.data.iter().next().unwrap().unwrap().as_ptr(), frame[11..].as_ptr());
    kind(Mode::Backend, b"D\0\0\0\x06\0\0", &[19, 7, 0], |out| encode::data_row(&[], b"", out));
    limited(LARGE, |value, out| encode::data_row(&[value.len() as i32], value, out));
    list(SIGNED, Mode::Backend, 0, VALUES, |n, out| encode::data_row(&many(n, length), b"", out));
}

#[test]
fn command_complete() {
    let m = kind(Mode::Backend, b"C\0\0\0\x0dSELECT 1\0", &[20, 5, 8], |out| encode::command_complete(b"SELECT 1", out));
    assert_eq!(m, Message::CommandComplete(CommandComplete { tag: b"SELECT 1" }));
    text(SMALL, encode::command_complete);
}

#[test]
fn ready_for_query() {
    for status in [READY_STATUS_IDLE, READY_STATUS_TRANSACTION_BLOCK, READY_STATUS_FAILED_TRANSACTION_BLOCK] {
        let frame = [b'Z', 0, 0, 0, 5, status];
        let m = kind(Mode::Backend, &frame, &[21, status as usize], |out| encode::ready_for_query(status, out));
        assert_eq!(m, Message::ReadyForQuery(ReadyForQuery { status }));
    }
    one_of(b"ITE", encode::ready_for_query);
}

#[test]
fn errors_and_notices() {
    let m = kind(Mode::Backend, b"E\0\0\0\x0eSbad\0Mno\0\0", &[22, 5, 2], |out| encode::error_response(b"SM", &[3, 2], b"badno", out));
    let Message::ErrorResponse(m) = m else { panic!("{m:?}") };
    let fields = [ErrorField { code: b'S', text: b"bad" }, ErrorField { code: b'M', text: b"no" }];
    assert!(m.fields.iter().eq(fields));
    assert_eq!((m.fields.text(b'M'), m.fields.text(b'D')), (Some(&b"no"[..]), None));
    let m = kind(Mode::Backend, b"N\0\0\0\x07C\0\0", &[23, 5, 1], |out| encode::notice_response(b"C", &[0], b"", out));
    let Message::NoticeResponse(m) = m else { panic!("{m:?}") };
    assert!(m.fields.iter().eq([ErrorField { code: b'C', text: b"" }]));
    kind(Mode::Backend, b"E\0\0\0\x05\0", &[22, 5, 0], |out| encode::error_response(b"", &[], b"", out));
    text(LARGE, |text, out| encode::error_response(b"S", &[text.len() as u32], text, out));
    text(LARGE, |text, out| encode::notice_response(b"S", &[text.len() as u32], text, out));
}

#[test]
fn copy_responses() {
    let m = kind(Mode::Backend, b"G\0\0\0\x0b\x01\0\x02\0\x01\xff\xff", &[24, 1, 8, 2], |out| encode::copy_in_response(1, &[1, -1], out));
    let Message::CopyInResponse(m) = m else { panic!("{m:?}") };
    assert_eq!(m.format, 1);
    assert!(m.column_formats.iter().eq([1, -1]));
    let numbers = [25, 4294967295, 8, 0];
    let m = kind(Mode::Backend, b"H\0\0\0\x07\xff\0\0", &numbers, |out| encode::copy_out_response(-1, &[], out));
    let Message::CopyOutResponse(m) = m else { panic!("{m:?}") };
    assert_eq!((m.format, m.column_formats.len()), (-1, 0));
    let numbers = [26, 4294967168, 8, 1];
    let m = kind(Mode::Backend, b"W\0\0\0\x09\x80\0\x01\x01\x02", &numbers, |out| encode::copy_both_response(-128, &[258], out));
    let Message::CopyBothResponse(m) = m else { panic!("{m:?}") };
    assert_eq!(m.format, -128);
    assert!(m.column_formats.iter().eq([258]));
    list(4092, Mode::Backend, 0, FORMATS, |n, out| encode::copy_in_response(0, &many(n, format_code), out));
    list(4092, Mode::Backend, 0, FORMATS, |n, out| encode::copy_out_response(0, &many(n, format_code), out));
    list(4092, Mode::Backend, 0, FORMATS, |n, out| encode::copy_both_response(0, &many(n, format_code), out));
}

#[test]
fn notification_response() {
    let m = kind(Mode::Backend, b"A\0\0\0\x0d\xff\xff\xff\xf9c\0pq\0", &[27, 4294967289, 9, 1, 11, 2], |out| {
        encode::notification_response(-7, b"c", b"pq", out)
    });
    assert_eq!(m, Message::NotificationResponse(NotificationResponse { pid: -7, channel: b"c", payload: b"pq" }));
    text(LARGE, |channel, out| encode::notification_response(0, channel, b"", out));
    text(LARGE, |payload, out| encode::notification_response(0, b"", payload, out));
}

#[test]
fn cancel_request() {
    for mode in [Mode::CancelRequest, Mode::FirstPacket] {
        let frame = b"\0\0\0\x10\x04\xd2\x16\x2e\0\0\0\x07\0\0\0\x09";
        let m = kind(mode, &frame[..], &[28, 7, 9], |out| encode::cancel_request(7, 9, out));
        assert_eq!(m, Message::CancelRequest(CancelRequest { pid: 7, secret_key: 9 }));
        let frame = b"\0\0\0\x10\x04\xd2\x16\x2e\xff\xff\xff\xff\x80\0\0\0";
        let numbers = [28, 4294967295, 2147483648];
        let m = kind(mode, &frame[..], &numbers, |out| encode::cancel_request(-1, i32::MIN, out));
        assert_eq!(m, Message::CancelRequest(CancelRequest { pid: -1, secret_key: i32::MIN }));
    }
}

#[test]
fn startup() {
    let frame = b"\0\0\0\x12\0\x03\0\0user\0bob\0\0";
    let m = kind(Mode::FirstPacket, &frame[..], &[31, 8, 1], |out| encode::startup(&[4, 3], b"userbob", out));
    let Message::Startup(m) = m else { panic!("{m:?}") };
    assert!(m.parameters.iter().eq([(&b"user"[..], &b"bob"[..])]));
    assert_eq!((m.parameters.value(b"user"), m.parameters.value(b"use")), (Some(&b"bob"[..]), None));
    // parts of the caller's buffer itself
    let (name, value) = m.parameters.iter().next().unwrap();
    assert_eq!((name.as_ptr(), value.as_ptr()), (frame[8..].as_ptr(), frame[13..].as_ptr()));
    // order is kept, also of one name twice; a value may be empty
    let frame = b"\0\0\0\x13\0\x03\0\0b\0x\0a\0\0b\0\0\0";
    let m = kind(Mode::FirstPacket, &frame[..], &[31, 8, 3], |out| encode::startup(&[1, 1, 1, 0, 1, 0], b"bxab", out));
    let Message::Startup(m) = m else { panic!("{m:?}") };
    assert!(m.parameters.iter().eq([(&b"b"[..], &b"x"[..]), (b"a", b""), (b"b", b"")]));
    assert_eq!((m.parameters.len(), m.parameters.iter().len(), m.parameters.is_empty()), (3, 3, false));
    assert_eq!(m.parameters.value(b"b"), Some(&b""[..]));
    // the list starts at 8, also where it is empty
    let m = kind(Mode::FirstPacket, b"\0\0\0\x09\0\x03\0\0\0", &[31, 8, 0], |out| encode::startup(&[], b"", out));
    let Message::Startup(m) = m else { panic!("{m:?}") };
    assert!(m.parameters.is_empty() && m.parameters.iter().next().is_none());
    // its length counts all its bytes, where a type byte is not counted: one fewer than `text` takes for
    text(SMALL - 1, |value, out| encode::startup(&[1, value.len() as u32], &[b"n", value].concat(), out));
    text(SMALL - 1, |name, out| encode::startup(&[1 + name.len() as u32, 0], &[b"n", name].concat(), out));
}

#[test]
fn requests_for_encryption() {
    let m = kind(Mode::FirstPacket, b"\0\0\0\x08\x04\xd2\x16\x2f", &[32], encode::ssl_request);
    assert_eq!(m, Message::SslRequest);
    let m = kind(Mode::FirstPacket, b"\0\0\0\x08\x04\xd2\x16\x30", &[33], encode::gss_enc_request);
    assert_eq!(m, Message::GssEncRequest);
}

#[test]
fn query() {
    let m = kind(Mode::Frontend, b"Q\0\0\0\x0dselect 1\0", &[34, 5, 8], |out| encode::query(b"select 1", out));
    assert_eq!(m, Message::Query(Query { query: b"select 1" }));
    let m = kind(Mode::Frontend, b"Q\0\0\0\x05\0", &[34, 5, 0], |out| encode::query(b"", out));
    assert_eq!(m, Message::Query(Query { query: b"" }));
    text(SMALL, encode::query);
}

#[test]
fn parameter_status() {
    let m = kind(Mode::Backend, b"S\0\0\0\x09a\0bc\0", &[36, 5, 1, 7, 2], |out| encode::parameter_status(b"a", b"bc", out));
    assert_eq!(m, Message::ParameterStatus(ParameterStatus { name: b"a", value: b"bc" }));
    let m = kind(Mode::Backend, b"S\0\0\0\x06\0\0", &[36, 5, 0, 6, 0], |out| encode::parameter_status(b"", b"", out));
    assert_eq!(m, Message::ParameterStatus(ParameterStatus { name: b"", value: b"" }));
    text(SMALL, |name, out| encode::parameter_status(name, b"", out));
    text(SMALL, |value, out| encode::parameter_status(b"", value, out));
}

#[test]
fn backend_key_data() {
    let frame = b"K\0\0\0\x0c\xff\xff\xff\xfe\x80\0\0\x01";
    let numbers = [37, 4294967294, 2147483649];
    let m = kind(Mode::Backend, &frame[..], &numbers, |out| encode::backend_key_data(-2, i32::MIN + 1, out));
    assert_eq!(m, Message::BackendKeyData(BackendKeyData { pid: -2, secret_key: i32::MIN + 1 }));
}

#[test]
fn answers_of_one_byte() {
    for (byte, number, answer) in [(b"S", 0, SslResponse::Accept), (b"N", 1, SslResponse::Refuse)] {
        let m = kind(Mode::SslResponse, byte, &[29, number], |out| encode::ssl_response(answer, out));
        assert_eq!(m, Message::SslResponse(answer));
    }
    for (byte, number, answer) in [(b"G", 0, GssEncResponse::Accept), (b"N", 1, GssEncResponse::Refuse)] {
        let m = kind(Mode::GssEncResponse, byte, &[30, number], |out| encode::gss_enc_response(answer, out));
        assert_eq!(m, Message::GssEncResponse(answer));
    }
}

#[test]
fn the_largest_frames() {
    let mut frame = vec![b'x'; 1048577];
    frame[..5].copy_from_slice(b"d\0\x10\0\0");
    round_trip(Mode::Backend, &frame);
    let mut frame = vec![b'x'; 8193];
    frame[..5].copy_from_slice(b"C\0\0\x20\0");
    frame[8192] = 0;
    round_trip(Mode::Backend, &frame);
    let mut frame = vec![b'x'; 8192];
    frame[..8].copy_from_slice(b"\0\0\x20\0\0\x03\0\0");
    frame[4000] = 0;
    frame[8190..].fill(0);
    round_trip(Mode::FirstPacket, &frame);
}
