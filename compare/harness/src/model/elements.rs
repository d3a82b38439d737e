//! What element calls answer, and the content that a record means: FORMAT 8.

use super::decode::{decode, Answer};
use super::frame::{Element, Frame, Slot};
use super::kinds::{Kind, Part};
use crate::content::{Content, Field, RowField};
use Part::*;

/// The kind's lists from left to right: which part, and its slot.
pub fn lists(kind: &Kind, slots: &[Slot]) -> Vec<(Part, usize, usize)> {
    kind.body
        .iter()
        .zip(slots)
        .filter_map(|(p, s)| match s {
            Slot::List(start, n) => Some((*p, *start, *n)),
            _ => None,
        })
        .collect()
}

pub fn element(mode: u8, buf: &[u8], list: usize, number: usize) -> Element {
    let (kind, end, slots) = match decode(mode, buf) {
        Answer::Record(kind, end, slots) => (kind, end, slots),
        Answer::NeedMore => return Element::NeedMore,
        Answer::Refused(n, place) => return Element::Refused(n, place),
    };
    let lists = lists(kind, &slots);
    let Some((part, start, n)) = lists.get(list) else { return Element::Refused(11, 0) };
    if number >= *n {
        return Element::Refused(11, 0);
    }
    let mut frame = Frame::new(&buf[..end], *start);
    for _ in 0..number {
        frame.element(*part).unwrap();
    }
    frame.element(*part).unwrap()
}

/// The item of a list at a place of a frame, and the next place.
pub fn item(list: Part, bytes: &[u8], at: usize) -> (Element, usize) {
    if at > bytes.len() {
        return (Element::Refused(6, at), 0);
    }
    let mut frame = Frame::new(bytes, at);
    match frame.element(list) {
        Ok(element) => (element, frame.at),
        Err((number, place)) => (Element::Refused(number, place), 0),
    }
}

/// What a record means.
pub fn content(answer: &Answer, buf: &[u8]) -> Option<Content> {
    let Answer::Record(kind, end, slots) = answer else { return None };
    let field = |(i, slot): (usize, &Slot)| match (kind.body.get(i), slot) {
        (_, Slot::Num(n)) => Field::Num(*n),
        (Some(Rest), Slot::Span(s, n)) => Field::Bytes(buf[*s..s + n].to_vec()),
        (_, Slot::Span(s, n)) => Field::Text(buf[*s..s + n].to_vec()),
        (Some(part), Slot::List(start, n)) => {
            let mut frame = Frame::new(&buf[..*end], *start);
            let elements: Vec<Element> = (0..*n).map(|_| frame.element(*part).unwrap()).collect();
            list_content(*part, &elements, buf)
        }
        (None, _) => unreachable!("a list is a part of the body"),
    };
    Some(Content { kind: kind.number, fields: slots.iter().enumerate().map(field).collect() })
}

fn list_content(part: Part, elements: &[Element], buf: &[u8]) -> Field {
    let elements = elements.iter();
    match part {
        Oids => Field::Oids(elements.map(|e| if let Element::Oid(n) = e { *n } else { panic!("{e:?}") }).collect()),
        Formats => Field::Formats(elements.map(|e| if let Element::Format(n) = e { *n } else { panic!("{e:?}") }).collect()),
        Values => Field::Values(elements.map(|e| value_content(e, buf)).collect()),
        RowFields => Field::RowFields(elements.map(|e| row_field_content(e, buf)).collect()),
        Errors => Field::Errors(elements.map(|e| error_content(e, buf)).collect()),
        Pairs => Field::Pairs(elements.map(|e| pair_content(e, buf)).collect()),
        _ => unreachable!("{part:?} is no list"),
    }
}

fn value_content(e: &Element, buf: &[u8]) -> Option<Vec<u8>> {
    match e {
        Element::Null => None,
        Element::Value(s, n) => Some(buf[*s..s + n].to_vec()),
        _ => panic!("{e:?}"),
    }
}

fn row_field_content(e: &Element, buf: &[u8]) -> RowField {
    let Element::Field { name: (s, n), table_id, column_id, type_id, type_size, type_modifier, format_code } = *e else { panic!("{e:?}") };
    RowField { name: buf[s..s + n].to_vec(), table_id, column_id, type_id, type_size, type_modifier, format_code }
}

fn error_content(e: &Element, buf: &[u8]) -> (u8, Vec<u8>) {
    let Element::ErrorField(code, s, n) = *e else { panic!("{e:?}") };
    (code, buf[s..s + n].to_vec())
}

fn pair_content(e: &Element, buf: &[u8]) -> (Vec<u8>, Vec<u8>) {
    let Element::Pair { name, value } = *e else { panic!("{e:?}") };
    (buf[name.0..name.0 + name.1].to_vec(), buf[value.0..value.0 + value.1].to_vec())
}
