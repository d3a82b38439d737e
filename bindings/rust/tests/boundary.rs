//! Each exported function with known answers, number by number. tests/kinds.rs has the numbers of decoding for every kind.

use tusweram::ffi::{self, Lists, Plain};
use tusweram::{FieldDescription, Span};

const ROW: &[u8] = b"D\0\0\0\x10\0\x02\0\0\0\x02ab\xff\xff\xff\xff";
const FIELDS: &[u8] = b"T\0\0\0\x2d\0\x02a\0\0\0\0\x02\0\x03\0\0\0\x04\0\x05\xff\xff\xff\xff\0\x01\
    \0\x80\0\0\0\xff\xfe\xff\xff\xff\xff\xff\xff\0\0\0\x07\xff\xfd";
const ERRORS: &[u8] = b"E\0\0\0\x0aSx\0M\0\0";
const STARTUP: &[u8] = b"\0\0\0\x16\0\x03\0\0user\0bob\0xy\0\0\0";
const BIND: &[u8] = b"B\0\0\0\x15\0\0\0\x01\xff\xfe\0\x01\0\0\0\x01a\0\x01\0\x01";

fn row(numbers: &[usize]) -> ffi::Row {
    let mut row = [0; 16];
    row[..numbers.len()].copy_from_slice(numbers);
    row
}

#[test]
fn decode() {
    assert_eq!(ffi::decode(1, ROW), row(&[0, 0, 0, 17, 19, 7, 2]));
    assert_eq!(ffi::decode(1, &ROW[..16]), row(&[1]));
    assert_eq!(ffi::decode(0, b""), row(&[1]));
    assert_eq!(ffi::decode(1, b"C\0\0\0\x06OK"), row(&[2, 6, 5]));
    assert_eq!(ffi::decode(5, STARTUP), row(&[0, 0, 0, 22, 31, 8, 2]));
    for mode in 6..=255 {
        assert_eq!(ffi::decode(mode, ROW), row(&[2, 1, 0]));
    }
}

#[test]
fn element() {
    assert_eq!(ffi::element(0, b"P\0\0\0\x0c\0\0\0\x01\xff\0\0\x02", 0, 0), row(&[0, 0, 0, 0, 1, 0xff000002]));
    assert_eq!(ffi::element(0, BIND, 0, 0), row(&[0, 0, 0, 0, 2, 4294967294]));
    assert_eq!(ffi::element(0, BIND, 1, 0), row(&[0, 0, 0, 0, 4, 17, 1]));
    assert_eq!(ffi::element(0, BIND, 2, 0), row(&[0, 0, 0, 0, 2, 1]));
    assert_eq!(ffi::element(1, ROW, 0, 0), row(&[0, 0, 0, 0, 4, 11, 2]));
    assert_eq!(ffi::element(1, ROW, 0, 1), row(&[0, 0, 0, 0, 3]));
    let field = b"T\0\0\0\x1a\0\x01a\0\0\0\0\x02\0\x03\0\0\0\x04\0\x05\xff\xff\xff\xff\0\x01";
    assert_eq!(ffi::element(1, field, 0, 0), row(&[0, 0, 0, 0, 5, 7, 1, 2, 3, 4, 5, 4294967295, 1]));
    assert_eq!(ffi::element(1, b"E\0\0\0\x08Sx\0\0", 0, 0), row(&[0, 0, 0, 0, 6, 83, 6, 1]));
    assert_eq!(ffi::element(5, STARTUP, 0, 0), row(&[0, 0, 0, 0, 7, 8, 4, 13, 3]));
    assert_eq!(ffi::element(5, STARTUP, 0, 1), row(&[0, 0, 0, 0, 7, 17, 2, 20, 0]));
    assert_eq!(ffi::element(1, &ROW[..16], 0, 0), row(&[1]));
    for (list, number) in [(0, 2), (0, usize::MAX), (1, 0), (usize::MAX, 0)] {
        assert_eq!(ffi::element(1, ROW, list, number), row(&[2, 11, 0]));
    }
    assert_eq!(ffi::element(9, ROW, 0, 0), row(&[2, 1, 0]));
}

#[test]
fn value() {
    assert_eq!(ffi::value(ROW, 7), row(&[0, 0, 0, 13, 4, 11, 2]));
    assert_eq!(ffi::value(ROW, 13), row(&[0, 0, 0, 17, 3]));
    // cut: no length word, half of one, fewer bytes than it says, a place outside the frame
    for (frame, at) in [(ROW, 17), (ROW, 14), (&ROW[..12], 7), (ROW, 18), (ROW, usize::MAX), (&ROW[..0], 0)] {
        assert_eq!(ffi::value(frame, at), row(&[2, 6, at]));
    }
    assert_eq!(ffi::value(b"\xff\xff\xff\xfe", 0), row(&[2, 7, 0]));
    assert_eq!(ffi::value(b"\x80\0\0\0", 0), row(&[2, 7, 0]));
    assert_eq!(ffi::value(b"\0\0\0\0", 0), row(&[0, 0, 0, 4, 4, 4, 0]));
    assert_eq!(ffi::value(b"\x7f\xff\xff\xff", 0), row(&[2, 6, 0]));
}

#[test]
fn field() {
    assert_eq!(ffi::decode(1, FIELDS), row(&[0, 0, 0, 46, 17, 7, 2]));
    assert_eq!(ffi::field(FIELDS, 7), row(&[0, 0, 0, 27, 5, 7, 1, 2, 3, 4, 5, 4294967295, 1]));
    let second = [0, 0, 0, 46, 5, 27, 0, 2147483648, 4294967294, 4294967295, 4294967295, 7, 4294967293];
    assert_eq!(ffi::field(FIELDS, 27), row(&second));
    // cut at each byte: the place of the name, then of each number
    for (from, to, place) in [(0, 8, 7), (9, 12, 9), (13, 14, 13), (15, 18, 15), (19, 20, 19), (21, 24, 21), (25, 26, 25)] {
        for n in from..=to {
            assert_eq!(ffi::field(&FIELDS[..n], 7), row(&[2, 6, place]), "cut to {n}");
        }
    }
    assert_eq!(ffi::field(&FIELDS[..27], 7), ffi::field(FIELDS, 7));
    for at in [46, 47, usize::MAX / 2, usize::MAX - 18, usize::MAX] {
        assert_eq!(ffi::field(FIELDS, at), row(&[2, 6, at]));
        assert_eq!(ffi::field(b"", at), row(&[2, 6, at]));
    }
    assert_eq!(ffi::field(b"", 0), row(&[2, 6, 0]));
}

#[test]
fn error_field() {
    assert_eq!(ffi::decode(1, ERRORS), row(&[0, 0, 0, 11, 22, 5, 2]));
    assert_eq!(ffi::error_field(ERRORS, 5), row(&[0, 0, 0, 8, 6, 83, 6, 1]));
    assert_eq!(ffi::error_field(ERRORS, 8), row(&[0, 0, 0, 10, 6, 77, 9, 0]));
    // the list's end is a code as any other: here no text follows it, and here one does
    assert_eq!(ffi::error_field(ERRORS, 10), row(&[2, 6, 11]));
    assert_eq!(ffi::error_field(b"\0ab\0", 0), row(&[0, 0, 0, 4, 6, 0, 1, 2]));
    // cut: no code, no text, no zero byte
    for (n, place) in [(0, 5), (5, 5), (6, 6), (7, 6)] {
        assert_eq!(ffi::error_field(&ERRORS[..n], 5), row(&[2, 6, place]), "cut to {n}");
    }
    for at in [11, 12, usize::MAX / 2, usize::MAX - 1, usize::MAX] {
        assert_eq!(ffi::error_field(ERRORS, at), row(&[2, 6, at]));
        assert_eq!(ffi::error_field(b"", at), row(&[2, 6, at]));
    }
    assert_eq!(ffi::error_field(b"", 0), row(&[2, 6, 0]));
}

#[test]
fn pair() {
    assert_eq!(ffi::pair(STARTUP, 8), row(&[0, 0, 0, 17, 7, 8, 4, 13, 3]));
    assert_eq!(ffi::pair(STARTUP, 17), row(&[0, 0, 0, 21, 7, 17, 2, 20, 0]));
    // the list's end is a name as any other: here no value follows it, and here one does
    assert_eq!(ffi::pair(STARTUP, 21), row(&[2, 6, 22]));
    assert_eq!(ffi::pair(b"\0ab\0", 0), row(&[0, 0, 0, 4, 7, 0, 0, 1, 2]));
    // cut: no name, no zero byte behind it, no value, no zero byte behind that
    for n in 0..17 {
        let place = if n < 13 { 8 } else { 13 };
        assert_eq!(ffi::pair(&STARTUP[..n], 8), row(&[2, 6, place]), "cut to {n}");
    }
    for at in [22, 23, usize::MAX / 2, usize::MAX - 1, usize::MAX] {
        assert_eq!(ffi::pair(STARTUP, at), row(&[2, 6, at]));
        assert_eq!(ffi::pair(b"", at), row(&[2, 6, at]));
    }
    assert_eq!(ffi::pair(b"", 0), row(&[2, 6, 0]));
}

#[test]
fn data_row() {
    let (mut starts, mut lengths) = ([5; 3], [6; 3]);
    assert_eq!(ffi::data_row(ROW, &mut starts, &mut lengths), row(&[0, 0, 0, 17, 19, 7, 2]));
    assert_eq!((starts, lengths), ([11, 0, 5], [2, -1, 6]));
    let (mut starts, mut lengths) = ([5; 3], [6; 3]);
    assert_eq!(ffi::data_row(ROW, &mut starts[..1], &mut lengths), row(&[2, 9, 0]));
    assert_eq!(ffi::data_row(ROW, &mut starts, &mut lengths[..1]), row(&[2, 9, 0]));
    assert_eq!(ffi::data_row(ROW, &mut [], &mut []), row(&[2, 9, 0]));
    assert_eq!(ffi::data_row(b"1\0\0\0\x04", &mut starts, &mut lengths), row(&[2, 11, 0]));
    assert_eq!(ffi::data_row(&ROW[..16], &mut starts, &mut lengths), row(&[1]));
    assert_eq!(ffi::data_row(b"~", &mut starts, &mut lengths), row(&[2, 2, 0]));
    assert_eq!((starts, lengths), ([5; 3], [6; 3]));
    assert_eq!(ffi::data_row(b"D\0\0\0\x06\0\0", &mut [], &mut []), row(&[0, 0, 0, 7, 19, 7, 0]));
}

#[test]
fn encode() {
    let mut out = [1; 20];
    let given = Plain { byte: b'I', first: 7, second: 9, one: b"on", two: b"tw" };
    // each kind takes what is its own, whatever stands in the others' places
    assert_eq!(ffi::encode(28, given, &mut out), 16);
    assert_eq!(out[..17], *b"\0\0\0\x10\x04\xd2\x16\x2e\0\0\0\x07\0\0\0\x09\x01");
    assert_eq!(ffi::encode(27, given, &mut out), 15);
    assert_eq!(out[..16], *b"A\0\0\0\x0e\0\0\0\x07on\0tw\0\x09");
    assert_eq!(ffi::encode(32, given, &mut out), 8);
    assert_eq!(out[..9], *b"\0\0\0\x08\x04\xd2\x16\x2f\x07");
    assert_eq!(ffi::encode(33, given, &mut out), 8);
    assert_eq!(out[..9], *b"\0\0\0\x08\x04\xd2\x16\x30\x07");
    assert_eq!(ffi::encode(34, given, &mut out), 8);
    assert_eq!(out[..9], *b"Q\0\0\0\x07on\0\x07");
    assert_eq!(ffi::encode(35, given, &mut out), 5);
    assert_eq!(out[..6], *b"X\0\0\0\x04o");
    assert_eq!(ffi::encode(36, given, &mut out), 11);
    assert_eq!(out[..12], *b"S\0\0\0\x0aon\0tw\0\0");
    assert_eq!(ffi::encode(37, given, &mut out), 13);
    assert_eq!(out[..14], *b"K\0\0\0\x0c\0\0\0\x07\0\0\0\x09w");
    assert_eq!(ffi::encode(21, given, &mut out), 6);
    assert_eq!(out[..6], *b"Z\0\0\0\x05I");
    assert_eq!(ffi::encode(7, given, &mut out), 5);
    assert_eq!(out[..6], *b"S\0\0\0\x04I");
    let before = out;
    // no such kind here (255 will be none: kinds have small numbers, one after another); no such answer byte; no such target
    for (kind, number) in [(0, 2), (1, 2), (2, 2), (17, 2), (19, 2), (31, 2), (255, 2), (usize::MAX, 2), (29, 2), (30, 2), (3, 10)] {
        assert_eq!(ffi::encode(kind, given, &mut out), usize::MAX - number, "kind {kind}");
    }
    assert_eq!(ffi::encode(27, given, &mut out[..14]), usize::MAX - 9);
    assert_eq!(out, before);
}

#[test]
fn encode_lists() {
    let mut out = [1; 40];
    let given =
        Lists { format: -2, one: b"C", two: b"two", joined: b"abc", words: &[3], lengths: &[1, -1, 2], formats: &[-3], results: &[4, 5] };
    assert_eq!(ffi::encode_lists(1, given, &mut out), 17);
    assert_eq!(out[..18], *b"P\0\0\0\x10C\0two\0\0\x01\0\0\0\x03\x01");
    assert_eq!(ffi::encode_lists(2, given, &mut out), 38);
    let bind = b"B\0\0\0\x25C\0two\0\0\x01\xff\xfd\0\x03\0\0\0\x01a\xff\xff\xff\xff\0\0\0\x02bc\0\x02\0\x04\0\x05";
    assert_eq!(out[..38], *bind);
    assert_eq!(ffi::encode_lists(18, given, &mut out), 11);
    assert_eq!(out[..11], *b"t\0\0\0\x0a\0\x01\0\0\0\x03");
    assert_eq!(ffi::encode_lists(19, given, &mut out), 22);
    assert_eq!(out[..22], *b"D\0\0\0\x15\0\x03\0\0\0\x01a\xff\xff\xff\xff\0\0\0\x02bc");
    for (kind, byte) in [(22, b'E'), (23, b'N')] {
        assert_eq!(ffi::encode_lists(kind, given, &mut out), 11);
        assert_eq!(out[..11], [&[byte][..], b"\0\0\0\x0aCabc\0\0"].concat());
    }
    for (kind, byte) in [(24, b'G'), (25, b'H'), (26, b'W')] {
        assert_eq!(ffi::encode_lists(kind, given, &mut out), 10);
        assert_eq!(out[..10], [&[byte][..], b"\0\0\0\x09\xfe\0\x01\xff\xfd"].concat());
    }
    assert_eq!(ffi::encode_lists(31, Lists { words: &[1, 2], ..given }, &mut out), 14);
    assert_eq!(out[..14], *b"\0\0\0\x0e\0\x03\0\0a\0bc\0\0");
    let before = out;
    // an odd number of lengths
    assert_eq!(ffi::encode_lists(31, given, &mut out), usize::MAX - 10);
    for kind in [0, 3, 16, 17, 20, 21, 27, 30, 32, 33, 34, 35, 36, 37, usize::MAX] {
        assert_eq!(ffi::encode_lists(kind, given, &mut out), usize::MAX - 2, "kind {kind}");
    }
    assert_eq!(ffi::encode_lists(2, given, &mut out[..37]), usize::MAX - 9);
    assert_eq!(out, before);
}

#[test]
fn encode_row_description() {
    // as crates/protocol/src/data.rt has the fields, in C's layout
    assert_eq!((size_of::<FieldDescription>(), align_of::<FieldDescription>()), (40, 8));
    let field = FieldDescription {
        name: Span { start: 1, len: 1 },
        table_id: 2,
        column_id: 3,
        type_id: 4,
        type_size: 5,
        type_modifier: -1,
        format_code: 1,
    };
    let mut out = [1; 28];
    assert_eq!(ffi::encode_row_description(&[field], b"xay", &mut out), 27);
    assert_eq!(out, *b"T\0\0\0\x1a\0\x01a\0\0\0\0\x02\0\x03\0\0\0\x04\0\x05\xff\xff\xff\xff\0\x01\x01");
    // a name outside the run
    for name in
        [Span { start: 3, len: 1 }, Span { start: 4, len: 0 }, Span { start: usize::MAX, len: 1 }, Span { start: 1, len: usize::MAX }]
    {
        let before = out;
        assert_eq!(ffi::encode_row_description(&[FieldDescription { name, ..field }], b"xay", &mut out), usize::MAX - 10);
        assert_eq!(out, before);
    }
    assert_eq!(ffi::encode_row_description(&[field], b"xay", &mut out[..26]), usize::MAX - 9);
}

#[test]
fn row_begin() {
    let (mut row, mut room) = ([5, 6], [0x55; 8]);
    assert_eq!(ffi::row_begin(&mut row, &mut room), 0);
    assert_eq!((row, room), ([0, 7], *b"D\0\0\0\x06\0\0U"));
    let (mut row, mut room) = ([5, 6], [0x55; 6]);
    assert_eq!(ffi::row_begin(&mut row, &mut room), 9);
    assert_eq!(ffi::row_begin(&mut row, &mut []), 9);
    assert_eq!((row, room), ([5, 6], [0x55; 6]));
}

#[test]
fn row_append() {
    let (mut row, mut room) = ([0, 7], *b"D\0\0\0\x06\0\0UUUUUUUUUUU");
    assert_eq!(ffi::row_append(&mut row, &mut room, b"ab"), 0);
    assert_eq!((row, room), ([1, 13], *b"D\0\0\0\x0c\0\x01\0\0\0\x02abUUUUU"));
    assert_eq!(ffi::row_append(&mut row, &mut room, b"cd"), 9);
    assert_eq!(ffi::row_append(&mut row, &mut room, &[0; 1048561]), 4);
    assert_eq!(ffi::row_append(&mut [2, 13], &mut room, b""), 10);
    assert_eq!((row, room), ([1, 13], *b"D\0\0\0\x0c\0\x01\0\0\0\x02abUUUUU"));
    assert_eq!(ffi::row_append(&mut row, &mut room, b""), 0);
    assert_eq!((row, room), ([2, 17], *b"D\0\0\0\x10\0\x02\0\0\0\x02ab\0\0\0\0U"));
    assert_eq!(ffi::row_append(&mut row, &mut [], b""), 10);
}

#[test]
fn row_append_null() {
    let (mut row, mut room) = ([0, 7], *b"D\0\0\0\x06\0\0UUUUUU");
    assert_eq!(ffi::row_append_null(&mut row, &mut room), 0);
    assert_eq!((row, room), ([1, 11], *b"D\0\0\0\x0a\0\x01\xff\xff\xff\xffUU"));
    assert_eq!(ffi::row_append_null(&mut row, &mut room), 9);
    assert_eq!(ffi::row_append_null(&mut row, &mut []), 10);
    assert_eq!((row, room), ([1, 11], *b"D\0\0\0\x0a\0\x01\xff\xff\xff\xffUU"));
}

#[test]
fn row_drop_last() {
    let (mut row, mut room) = ([2, 17], ROW.to_vec());
    assert_eq!(ffi::row_drop_last(&mut row, &mut room), 0);
    assert_eq!((row, &room[..]), ([1, 13], &b"D\0\0\0\x0c\0\x01\0\0\0\x02ab\xff\xff\xff\xff"[..]));
    assert_eq!(ffi::row_drop_last(&mut row, &mut room), 0);
    assert_eq!((row, &room[..]), ([0, 7], &b"D\0\0\0\x06\0\0\0\0\0\x02ab\xff\xff\xff\xff"[..]));
    assert_eq!(ffi::row_drop_last(&mut row, &mut room), 11);
    assert_eq!(ffi::row_drop_last(&mut [0, 8], &mut room), 10);
    assert_eq!(ffi::row_drop_last(&mut row, &mut []), 10);
    assert_eq!((row, &room[..]), ([0, 7], &b"D\0\0\0\x06\0\0\0\0\0\x02ab\xff\xff\xff\xff"[..]));
}

#[test]
fn row_finish() {
    assert_eq!(ffi::row_finish(&[2, 17], ROW), 0);
    for (row, room) in [([2, 16], ROW), ([1, 17], ROW), ([2, 17], &ROW[..16]), ([0, 0], &ROW[..0]), ([usize::MAX; 2], ROW)] {
        assert_eq!(ffi::row_finish(&row, room), 10);
    }
}
