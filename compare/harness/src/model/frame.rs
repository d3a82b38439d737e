//! The fields of a body, read from left to right: FORMAT 1, 5 and 7.

use super::kinds::{Count, Kind, Part, STATUSES, TARGETS};
use Part::*;

/// What a record holds of a part: a number, a first byte and a length, or a first element and a count.
#[derive(Clone, Copy, PartialEq, Eq, Debug)]
pub enum Slot {
    Num(i64),
    Span(usize, usize),
    List(usize, usize),
}

/// What an element call answers; a span is its first byte and its length.
#[derive(Clone, PartialEq, Eq, Debug)]
pub enum Element {
    Oid(u32),
    Format(i16),
    Null,
    Value(usize, usize),
    Field { name: (usize, usize), table_id: i32, column_id: i16, type_id: u32, type_size: i16, type_modifier: i32, format_code: i16 },
    ErrorField(u8, usize, usize),
    Pair { name: (usize, usize), value: (usize, usize) },
    NeedMore,
    Refused(u8, usize),
}

/// A fault: the refusal's number and place.
pub type Read<T> = Result<T, (u8, usize)>;

/// A frame, how far it is read, and what is being read, for whoever asks what was cut: which part of the body, and what of it.
pub struct Frame<'a> {
    bytes: &'a [u8],
    pub at: usize,
    pub field: usize,
    pub what: &'static str,
}

impl<'a> Frame<'a> {
    pub fn new(bytes: &'a [u8], at: usize) -> Frame<'a> {
        Frame { bytes, at, field: 0, what: "" }
    }

    fn left(&self) -> usize {
        self.bytes.len() - self.at
    }

    /// A big-endian signed number of `width` bytes.
    fn number(&mut self, width: usize) -> Read<i64> {
        self.what = "number";
        if self.left() < width {
            return Err((6, self.at));
        }
        let mut n: i64 = if self.bytes[self.at] >= 128 { -1 } else { 0 };
        for b in &self.bytes[self.at..self.at + width] {
            n = n * 256 + *b as i64;
        }
        self.at += width;
        Ok(n)
    }

    fn byte(&mut self) -> Read<u8> {
        Ok(self.number(1)? as u8)
    }

    /// A string: its first byte and its length.
    fn string(&mut self) -> Read<(usize, usize)> {
        let from = self.at;
        self.what = "string";
        match self.bytes[from..].iter().position(|b| *b == 0) {
            Some(n) => {
                self.at = from + n + 1;
                Ok((from, n))
            }
            None => Err((6, from)),
        }
    }

    fn value(&mut self) -> Read<Element> {
        let from = self.at;
        let n = self.number(4)?;
        if n < -1 {
            return Err((7, from));
        }
        if n == -1 {
            return Ok(Element::Null);
        }
        let n = n as usize;
        if self.left() < n {
            return Err((6, from));
        }
        let value = Element::Value(self.at, n);
        self.at += n;
        Ok(value)
    }

    fn one_of(&mut self, allowed: &[u8]) -> Read<Slot> {
        let from = self.at;
        let b = self.byte()?;
        match allowed.contains(&b) {
            true => Ok(Slot::Num(b as i64)),
            false => Err((7, from)),
        }
    }

    /// One element of a list.
    pub fn element(&mut self, part: Part) -> Read<Element> {
        match part {
            Oids => Ok(Element::Oid(self.number(4)? as u32)),
            Formats => Ok(Element::Format(self.number(2)? as i16)),
            Values => self.value(),
            RowFields => self.row_field(),
            Errors => {
                let code = self.byte()?;
                let (start, len) = self.string()?;
                Ok(Element::ErrorField(code, start, len))
            }
            Pairs => Ok(Element::Pair { name: self.string()?, value: self.string()? }),
            _ => unreachable!("{part:?} is no list"),
        }
    }

    fn row_field(&mut self) -> Read<Element> {
        Ok(Element::Field {
            name: self.string()?,
            table_id: self.number(4)? as i32,
            column_id: self.number(2)? as i16,
            type_id: self.number(4)? as u32,
            type_size: self.number(2)? as i16,
            type_modifier: self.number(4)? as i32,
            format_code: self.number(2)? as i16,
        })
    }

    /// A count, and that many elements.
    fn list(&mut self, part: Part, counts: Count) -> Read<Slot> {
        let from = self.at;
        // without its sign a negative count is more than a signed one can say
        let n = self.number(2)? as u16 as usize;
        let smallest = part.smallest_element().expect("a list with a count");
        if n > counts.most() || n * smallest > self.left() {
            return Err((5, from));
        }
        let start = self.at;
        for _ in 0..n {
            self.element(part)?;
        }
        Ok(Slot::List(start, n))
    }

    /// An error's fields or a start-up's pairs, which end with a zero byte in place of a code or a name.
    fn ended(&mut self, part: Part) -> Read<Slot> {
        let from = self.at;
        let mut n = 0;
        loop {
            if self.left() == 0 {
                return Err((6, self.at));
            }
            if self.bytes[self.at] == 0 {
                self.at += 1;
                return Ok(Slot::List(from, n));
            }
            self.element(part)?;
            n += 1;
        }
    }

    fn part(&mut self, part: Part, counts: Count) -> Read<Slot> {
        match part {
            Str => self.string().map(|(start, len)| Slot::Span(start, len)),
            I8 => Ok(Slot::Num(self.number(1)?)),
            I32 => Ok(Slot::Num(self.number(4)?)),
            Target => self.one_of(TARGETS),
            Status => self.one_of(STATUSES),
            Oids | Formats | Values | RowFields => self.list(part, counts),
            Errors | Pairs => self.ended(part),
            Rest => {
                let rest = Slot::Span(self.at, self.left());
                self.at = self.bytes.len();
                Ok(rest)
            }
        }
    }

    pub fn body(&mut self, kind: &Kind) -> Read<Vec<Slot>> {
        let mut slots = Vec::new();
        for (i, p) in kind.body.iter().enumerate() {
            self.field = i;
            slots.push(self.part(*p, kind.counts)?);
        }
        if self.left() > 0 {
            return Err((8, self.at));
        }
        Ok(slots)
    }
}
