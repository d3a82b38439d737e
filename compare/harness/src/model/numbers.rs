//! The sixteen numbers of an answer at the boundary (crates/host_layout/specs/LaidOut.antt): status, refusal number, place, consumed, kind, fields.

use super::decode::Answer;
use super::elements::lists;
use super::frame::{Element, Slot};

const COUNT: usize = 16;
pub type Numbers = [usize; COUNT];

/// A signed number's 32 bits.
fn bits(n: i64) -> usize {
    n as i32 as u32 as usize
}

fn need_more() -> Numbers {
    laid_out(&[1])
}

fn refused(number: u8, place: usize) -> Numbers {
    laid_out(&[2, number as usize, place])
}

/// Zeros stand behind what an answer has.
fn laid_out(numbers: &[usize]) -> Numbers {
    let mut out = [0; COUNT];
    out[..numbers.len()].copy_from_slice(numbers);
    out
}

/// What decoding answers.
pub fn of(answer: &Answer) -> Numbers {
    match answer {
        Answer::NeedMore => need_more(),
        Answer::Refused(number, place) => refused(*number, *place),
        Answer::Record(kind, consumed, slots) => {
            let mut numbers = vec![0, 0, 0, *consumed, kind.number as usize];
            for slot in slots {
                match slot {
                    Slot::Num(n) => numbers.push(bits(*n)),
                    Slot::Span(a, b) | Slot::List(a, b) => numbers.extend([*a, *b]),
                }
            }
            laid_out(&numbers)
        }
    }
}

/// What reading a row in one pass answers, where the shorter of its two slices has room for `room` entries.
pub fn of_row(answer: &Answer, room: usize) -> Numbers {
    match answer {
        Answer::Record(kind, _, _) if !kind.is_data_row() => refused(11, 0),
        Answer::Record(kind, _, slots) if lists(kind, slots)[0].2 > room => refused(9, 0),
        other => of(other),
    }
}

/// What an element call answers.
pub fn of_element(e: &Element) -> Numbers {
    let element = |numbers: &[usize]| laid_out(&[&[0; 4][..], numbers].concat());
    match *e {
        Element::Oid(n) => element(&[1, n as usize]),
        Element::Format(n) => element(&[2, bits(n as i64)]),
        Element::Null => element(&[3]),
        Element::Value(s, n) => element(&[4, s, n]),
        Element::Field { name: (s, n), table_id, column_id, type_id, type_size, type_modifier, format_code } => element(&[
            5,
            s,
            n,
            bits(table_id as i64),
            bits(column_id as i64),
            type_id as usize,
            bits(type_size as i64),
            bits(type_modifier as i64),
            bits(format_code as i64),
        ]),
        Element::ErrorField(code, s, n) => element(&[6, code as usize, s, n]),
        Element::Pair { name, value } => element(&[7, name.0, name.1, value.0, value.1]),
        Element::NeedMore => need_more(),
        Element::Refused(number, place) => refused(number, place),
    }
}

/// What a call for the item at a place answers, with the next place.
pub fn of_item((item, next): &(Element, usize)) -> Numbers {
    let mut numbers = of_element(item);
    numbers[3] = *next;
    numbers
}
