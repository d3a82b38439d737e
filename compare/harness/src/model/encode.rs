//! What an encoder is given, and what it writes: FORMAT 9.

use super::kinds::{numbered, Count, Framing, Kind, Part, REFUSES, STATUSES, TARGETS};
use crate::content::{Content, Field, RowField};
use Part::*;

/// A field of a RowDescription to be written: its name is a part of the run.
#[derive(Clone, PartialEq, Eq, Debug)]
pub struct RowFieldGiven {
    pub start: usize,
    pub len: usize,
    pub table_id: i32,
    pub column_id: i16,
    pub type_id: u32,
    pub type_size: i16,
    pub type_modifier: i32,
    pub format_code: i16,
}

/// What an encoder is given; each kind uses what it has.
#[derive(Clone, PartialEq, Eq, Debug, Default)]
pub struct Given {
    pub kind: u8,
    /// Strings, or CopyData's bytes, from left to right.
    pub texts: Vec<Vec<u8>>,
    /// Numbers, a target, a status, or an answer (0 accept, 1 refuse), from left to right.
    pub numbers: Vec<i64>,
    pub oids: Vec<u32>,
    pub formats: Vec<i16>,
    pub results: Vec<i16>,
    /// Values: their lengths, -1 for NULL.
    pub lengths: Vec<i32>,
    /// An error's fields: their codes and their strings' lengths. A start-up's pairs have lengths alone, of name and value by turns.
    pub codes: Vec<u8>,
    pub sizes: Vec<u32>,
    /// The joined bytes of values or strings, or the run that names stand in.
    pub joined: Vec<u8>,
    pub row_fields: Vec<RowFieldGiven>,
}

/// The frame, or the number of the refusal; every refusal's place is 0.
pub fn encode(g: &Given, room: usize) -> Result<Vec<u8>, u8> {
    let kind = numbered(g.kind);
    let body = body(g, kind).ok_or(10u8)?;
    let frame = match kind.framing() {
        Framing::Typed => [&kind.tag_bytes()[..], &((body.len() + 4) as u32).to_be_bytes(), &body].concat(),
        Framing::Untyped => [&((body.len() + 8) as u32).to_be_bytes()[..], &kind.tag_bytes(), &body].concat(),
        Framing::Bare if g.numbers[0] == 0 => kind.tag_bytes(),
        Framing::Bare => vec![REFUSES],
    };
    if (frame.len() - kind.framing().length_at()) as i64 > kind.limit {
        return Err(4);
    }
    if frame.len() > room {
        return Err(9);
    }
    Ok(frame)
}

/// The body, where it can be written.
fn body(g: &Given, kind: &Kind) -> Option<Vec<u8>> {
    let mut out = Body { bytes: vec![], counts: kind.counts };
    let mut texts = g.texts.iter();
    let mut numbers = g.numbers.iter();
    let mut formats = [&g.formats, &g.results].into_iter();
    for part in kind.body {
        match part {
            Str => out.string(texts.next().unwrap())?,
            Rest => out.put(texts.next().unwrap()),
            I8 => out.put(&(*numbers.next().unwrap() as i8).to_be_bytes()),
            I32 => out.put(&(*numbers.next().unwrap() as i32).to_be_bytes()),
            Target => out.one_of(*numbers.next().unwrap() as u8, TARGETS)?,
            Status => out.one_of(*numbers.next().unwrap() as u8, STATUSES)?,
            Oids => {
                out.count(g.oids.len())?;
                g.oids.iter().for_each(|n| out.put(&n.to_be_bytes()));
            }
            Formats => {
                let list = formats.next().unwrap();
                out.count(list.len())?;
                list.iter().for_each(|n| out.put(&n.to_be_bytes()));
            }
            Values => out.values(&g.lengths, &g.joined)?,
            RowFields => out.row_fields(&g.row_fields, &g.joined)?,
            Errors => out.errors(&g.codes, &g.sizes, &g.joined)?,
            Pairs => out.pairs(&g.sizes, &g.joined)?,
        }
    }
    Some(out.bytes)
}

/// The bytes of a body so far. What cannot be written is None.
struct Body {
    bytes: Vec<u8>,
    counts: Count,
}

impl Body {
    fn put(&mut self, bytes: &[u8]) {
        self.bytes.extend_from_slice(bytes);
    }

    fn count(&mut self, n: usize) -> Option<()> {
        if n > self.counts.most() {
            return None;
        }
        self.put(&(n as u16).to_be_bytes());
        Some(())
    }

    fn string(&mut self, s: &[u8]) -> Option<()> {
        if s.contains(&0) {
            return None;
        }
        self.put(s);
        self.put(&[0]);
        Some(())
    }

    fn one_of(&mut self, b: u8, allowed: &[u8]) -> Option<()> {
        if !allowed.contains(&b) {
            return None;
        }
        self.put(&[b]);
        Some(())
    }

    fn values(&mut self, lengths: &[i32], joined: &[u8]) -> Option<()> {
        let total: u64 = lengths.iter().map(|n| (*n).max(0) as u64).sum();
        if lengths.iter().any(|n| *n < -1) || total != joined.len() as u64 {
            return None;
        }
        self.count(lengths.len())?;
        let mut rest = joined;
        for n in lengths {
            let (value, after) = rest.split_at((*n).max(0) as usize);
            self.put(&n.to_be_bytes());
            self.put(value);
            rest = after;
        }
        Some(())
    }

    fn row_fields(&mut self, fields: &[RowFieldGiven], run: &[u8]) -> Option<()> {
        self.count(fields.len())?;
        for f in fields {
            self.string(run.get(f.start..f.start.checked_add(f.len)?)?)?;
            self.put(&f.table_id.to_be_bytes());
            self.put(&f.column_id.to_be_bytes());
            self.put(&f.type_id.to_be_bytes());
            self.put(&f.type_size.to_be_bytes());
            self.put(&f.type_modifier.to_be_bytes());
            self.put(&f.format_code.to_be_bytes());
        }
        Some(())
    }

    fn errors(&mut self, codes: &[u8], sizes: &[u32], joined: &[u8]) -> Option<()> {
        if codes.len() != sizes.len() || codes.contains(&0) {
            return None;
        }
        for (code, text) in codes.iter().zip(taken_apart(sizes, joined)?) {
            self.put(&[*code]);
            self.string(text)?;
        }
        self.put(&[0]);
        Some(())
    }

    fn pairs(&mut self, sizes: &[u32], joined: &[u8]) -> Option<()> {
        if sizes.len() % 2 != 0 || sizes.iter().step_by(2).any(|name| *name == 0) {
            return None;
        }
        for text in taken_apart(sizes, joined)? {
            self.string(text)?;
        }
        self.put(&[0]);
        Some(())
    }
}

/// The strings of joined bytes by their lengths, where these add up to them.
fn taken_apart<'a>(sizes: &[u32], joined: &'a [u8]) -> Option<Vec<&'a [u8]>> {
    let mut rest = joined;
    let mut texts = Vec::new();
    for n in sizes {
        let (text, after) = rest.split_at_checked(*n as usize)?;
        texts.push(text);
        rest = after;
    }
    rest.is_empty().then_some(texts)
}

/// The arguments that are a content: what its frame means.
pub fn given(c: &Content) -> Given {
    let mut g = Given { kind: c.kind, ..Given::default() };
    let mut second_formats = false;
    for f in &c.fields {
        match f {
            Field::Num(n) => g.numbers.push(*n),
            Field::Text(t) | Field::Bytes(t) => g.texts.push(t.clone()),
            Field::Oids(o) => g.oids = o.clone(),
            Field::Formats(f) if second_formats => g.results = f.clone(),
            Field::Formats(f) => {
                g.formats = f.clone();
                second_formats = true;
            }
            Field::Values(values) => values.iter().for_each(|v| g.give_value(v.as_deref())),
            Field::RowFields(fields) => fields.iter().for_each(|f| g.give_row_field(f)),
            Field::Errors(errors) => errors.iter().for_each(|(code, text)| {
                g.codes.push(*code);
                g.give_text(text);
            }),
            Field::Pairs(pairs) => pairs.iter().flat_map(|(name, value)| [name, value]).for_each(|text| g.give_text(text)),
            Field::Unread(_, _) => unreachable!("the Rust's form of a row"),
        }
    }
    g
}

impl Given {
    fn give_value(&mut self, value: Option<&[u8]>) {
        self.lengths.push(value.map_or(-1, |b| b.len() as i32));
        self.joined.extend_from_slice(value.unwrap_or(&[]));
    }

    fn give_row_field(&mut self, field: &RowField) {
        self.row_fields.push(RowFieldGiven {
            start: self.joined.len(),
            len: field.name.len(),
            table_id: field.table_id,
            column_id: field.column_id,
            type_id: field.type_id,
            type_size: field.type_size,
            type_modifier: field.type_modifier,
            format_code: field.format_code,
        });
        self.joined.extend_from_slice(&field.name);
    }

    fn give_text(&mut self, text: &[u8]) {
        self.sizes.push(text.len() as u32);
        self.joined.extend_from_slice(text);
    }
}
