//! What the tests share.
#![allow(dead_code)]

pub mod kinds;

use kinds::{walked, write, CODED, KINDS};
use tusweram::*;

/// Bytes from hexadecimal digits, with blanks between them.
pub fn hex(text: &str) -> Vec<u8> {
    text.split_whitespace().map(|byte| u8::from_str_radix(byte, 16).unwrap()).collect()
}

/// Whether a type byte tells a kind of the mode.
pub fn is_kind(mode: Mode, type_byte: u8) -> bool {
    KINDS.iter().any(|row| (row.0, row.1) == (mode, type_byte))
}

/// Whether a code tells a kind of the mode.
pub fn is_coded(mode: Mode, code: u32) -> bool {
    CODED.iter().any(|row| (row.0, row.1) == (mode, code))
}

/// Writes a frame's length into it: behind its type byte, or at its start.
pub fn set_length(mode: Mode, frame: &mut [u8]) {
    let at = if matches!(mode, Mode::Frontend | Mode::Backend) { 1 } else { 0 };
    let length = (frame.len() - at) as u32;
    frame[at..at + 4].copy_from_slice(&length.to_be_bytes());
}

/// An encoder's refusal.
pub fn cannot(number: u8, encoded: Encoded) {
    assert_eq!(encoded, Err(Refusal { number, place: 0 }));
}

/// Values as an encoder takes them: lengths, and the joined bytes.
fn joined(values: Values) -> (Vec<i32>, Vec<u8>) {
    let mut lengths = Vec::new();
    let mut bytes = Vec::new();
    for value in values {
        lengths.push(value.map_or(-1, |value| value.len() as i32));
        bytes.extend_from_slice(value.unwrap_or_default());
    }
    (lengths, bytes)
}

/// An error's fields as an encoder takes them.
fn report(fields: ErrorFields) -> (Vec<u8>, Vec<u32>, Vec<u8>) {
    let codes = fields.iter().map(|field| field.code).collect();
    let lengths = fields.iter().map(|field| field.text.len() as u32).collect();
    let texts = fields.iter().flat_map(|field| field.text.to_vec()).collect();
    (codes, lengths, texts)
}

/// A start-up packet's pairs as an encoder takes them.
fn settings(pairs: Pairs) -> (Vec<u32>, Vec<u8>) {
    let lengths = pairs.iter().flat_map(|(name, value)| [name.len() as u32, value.len() as u32]).collect();
    let texts = pairs.iter().flat_map(|(name, value)| [name, value].concat()).collect();
    (lengths, texts)
}

/// A row's fields as an encoder takes them.
fn records(fields: Fields) -> (Vec<FieldDescription>, Vec<u8>) {
    let mut run = Vec::new();
    let mut records = Vec::new();
    for field in fields {
        records.push(FieldDescription {
            name: Span { start: run.len(), len: field.name.len() },
            table_id: field.table_id,
            column_id: field.column_id,
            type_id: field.type_id,
            type_size: field.type_size,
            type_modifier: field.type_modifier,
            format_code: field.format_code,
        });
        run.extend_from_slice(field.name);
    }
    (records, run)
}

fn oids(list: Oids) -> Vec<u32> {
    list.iter().collect()
}

fn formats(list: Formats) -> Vec<i16> {
    list.iter().collect()
}

/// What the iterators give is what the element calls give, and past each list and behind the last there is none.
pub fn same_elements(mode: Mode, buf: &[u8], message: &Message) {
    let none = Element::Refused(Refusal { number: refusal::NO_SUCH_ELEMENT, place: 0 });
    let lists = walked(message);
    for (list, elements) in lists.iter().enumerate() {
        for (number, found) in elements.iter().enumerate() {
            assert_eq!(element(mode, buf, list, number), *found);
        }
        assert_eq!(element(mode, buf, list, elements.len()), none);
        assert_eq!(element(mode, buf, list, usize::MAX), none);
    }
    assert_eq!(element(mode, buf, lists.len(), 0), none);
    assert_eq!(element(mode, buf, usize::MAX, 0), none);
}

/// A row's values by the call that fills two slices are those of its iterator.
pub fn same_row(buf: &[u8], row: &DataRow) {
    let count = row.data.len();
    let mut starts = vec![7; count + 1];
    let mut lengths = vec![7; count + 1];
    let Row::Is(values, _) = data_row(buf, &mut starts, &mut lengths) else { panic!("no row") };
    assert_eq!(values, row.data);
    for (i, value) in row.data.iter().enumerate() {
        match value {
            None => assert_eq!(lengths[i], -1),
            Some(value) => assert_eq!(&buf[starts[i]..starts[i] + lengths[i] as usize], value),
        }
    }
    assert_eq!((starts[count], lengths[count]), (7, 7));
}

/// One frame: it decodes, alone and with bytes behind it, and written again it is the same, in a buffer that is just long enough and in a longer
/// one; in one that is too short nothing is written.
pub fn round_trip<'a>(mode: Mode, frame: &'a [u8]) -> Message<'a> {
    let Decoded::Record(message, consumed) = decode(mode, frame) else { panic!("{frame:x?} in {mode:?}: {:?}", decode(mode, frame)) };
    assert_eq!(consumed, frame.len());
    let mut longer = frame.to_vec();
    longer.extend_from_slice(b"\0\xffD\x01");
    assert_eq!(decode(mode, &longer), Decoded::Record(message, consumed));
    same_elements(mode, frame, &message);
    same_elements(mode, &longer, &message);
    if let Message::DataRow(row) = message {
        same_row(frame, &row);
        same_row(&longer, &row);
    }

    let mut out = vec![0xaa; frame.len()];
    assert_eq!(write(&message, &mut out), Ok(frame.len()));
    assert_eq!(out, frame);
    let mut out = vec![0xaa; frame.len() + 9];
    assert_eq!(write(&message, &mut out), Ok(frame.len()));
    assert_eq!(&out[..consumed], frame);
    assert!(out[consumed..].iter().all(|byte| *byte == 0xaa));
    for short in [frame.len() - 1, frame.len() / 2, 0] {
        let mut out = vec![0xaa; short];
        cannot(refusal::OUTPUT_TOO_SHORT, write(&message, &mut out));
        assert!(out.iter().all(|byte| *byte == 0xaa));
    }
    message
}

/// Every cut of a frame waits for more.
pub fn cuts_wait(mode: Mode, frame: &[u8]) {
    for n in 0..frame.len() {
        assert_eq!(decode(mode, &frame[..n]), Decoded::NeedMore, "{frame:x?} cut to {n}");
        assert_eq!(element(mode, &frame[..n], 0, 0), Element::NeedMore);
    }
}
