//! Contents of every kind: random ones, their frames, and what is made of them: longer ones, and such that cannot be written.

use super::Rng;
use crate::content::{Content, Field, Pair, RowField};
use crate::model::{self, numbered, Answer, Framing, Given, Kind, Part, Slot, REFUSES, STATUSES, TARGETS};

pub fn content(r: &mut Rng, kind: &Kind) -> Content {
    let mut fields: Vec<Field> = kind.body.iter().map(|p| part(r, *p)).collect();
    if kind.framing() == Framing::Bare {
        fields.push(Field::Num((kind.tag == REFUSES as u32) as i64));
    }
    Content { kind: kind.number, fields }
}

fn part(r: &mut Rng, p: Part) -> Field {
    match p {
        Part::Str => Field::Text(r.text()),
        Part::Rest => Field::Bytes(r.bytes()),
        Part::I8 => Field::Num(r.number() as i8 as i64),
        Part::I32 => Field::Num(r.number() as i64),
        Part::Target => Field::Num(*r.pick(TARGETS) as i64),
        Part::Status => Field::Num(*r.pick(STATUSES) as i64),
        _ => {
            let n = r.few();
            list(r, p, n)
        }
    }
}

fn list(r: &mut Rng, p: Part, n: usize) -> Field {
    match p {
        Part::Oids => Field::Oids((0..n).map(|_| r.number() as u32).collect()),
        Part::Formats => Field::Formats((0..n).map(|_| r.format()).collect()),
        Part::Values => Field::Values((0..n).map(|_| if r.one_in(4) { None } else { Some(r.bytes()) }).collect()),
        Part::RowFields => Field::RowFields((0..n).map(|_| row_field(r)).collect()),
        Part::Errors => Field::Errors((0..n).map(|_| ((r.below(255) + 1) as u8, r.text())).collect()),
        Part::Pairs => Field::Pairs(pairs(r, n)),
        _ => unreachable!("{p:?} is no list"),
    }
}

/// A content with `n` elements in one of its lists, and UTF-8 text, so that the Rust has a form for it; and where the list's count stands.
pub fn with_list_of(r: &mut Rng, kind: &Kind, field: usize, n: usize) -> (Content, usize) {
    let mut c = content(r, kind);
    while c.lossy() != c {
        c = content(r, kind);
    }
    c.fields[field] = list(r, kind.body[field], 0);
    let Answer::Record(_, _, slots) = model::decode(kind.mode, &frame(&c)) else { unreachable!("a frame that is taken") };
    let Slot::List(start, _) = slots[field] else { unreachable!("a list") };
    c.fields[field] = list(r, kind.body[field], n);
    // with longer names the frame would pass the limit
    if let Field::RowFields(fields) = &mut c.fields[field] {
        fields.iter_mut().for_each(|f| f.name.clear());
    }
    (c, start - 2)
}

/// Pairs whose names are not empty; at times the last has the name of the first.
fn pairs(r: &mut Rng, n: usize) -> Vec<Pair> {
    let mut pairs: Vec<Pair> = (0..n).map(|i| ([&[b'a' + i as u8][..], &r.text()].concat(), r.text())).collect();
    if pairs.len() > 1 && r.one_in(4) {
        last(&mut pairs).0 = pairs[0].0.clone();
    }
    // names in any order
    if r.one_in(2) {
        pairs.reverse();
    }
    pairs
}

fn row_field(r: &mut Rng) -> RowField {
    RowField {
        name: r.text(),
        table_id: r.number(),
        column_id: r.number() as i16,
        type_id: r.number() as u32,
        type_size: r.number() as i16,
        type_modifier: r.number(),
        format_code: r.format(),
    }
}

/// The content's frame, also above the limit, where the model refuses. What both sides send has the same bytes from both.
pub fn frame(c: &Content) -> Vec<u8> {
    let mut g = model::given(c);
    match model::encode(&g, usize::MAX) {
        Ok(f) => f,
        Err(4) => {
            // a rest is the only content that is made above its limit: the frame without it, and then its bytes
            assert!(numbered(c.kind).body == [Part::Rest]);
            let rest = std::mem::take(&mut g.texts[0]);
            let mut f = model::encode(&g, usize::MAX).unwrap();
            f.extend(rest);
            let n = (f.len() - 1) as u32;
            f[1..5].copy_from_slice(&n.to_be_bytes());
            f
        }
        Err(n) => panic!("a content that cannot be written: {n}"),
    }
}

/// Makes the frame longer by `n` bytes, where a string, a value or a rest allows it; else by as many elements as `n` bytes are.
pub fn stretched(c: &Content, n: usize) -> Option<Content> {
    let mut c = c.clone();
    let most = numbered(c.kind).counts.most();
    let longer = c.fields.iter_mut().rev().any(|f| stretch_bytes(f, n)) || c.fields.iter_mut().rev().any(|f| stretch_numbers(f, n, most));
    longer.then_some(c)
}

fn stretch_bytes(f: &mut Field, n: usize) -> bool {
    let bytes = match f {
        Field::Text(t) | Field::Bytes(t) => Some(t),
        Field::Values(values) => values.iter_mut().flatten().next(),
        Field::RowFields(fields) => fields.first_mut().map(|f| &mut f.name),
        Field::Errors(errors) => errors.first_mut().map(|(_, text)| text),
        Field::Pairs(pairs) => pairs.first_mut().map(|(_, value)| value),
        _ => None,
    };
    bytes.map(|t| t.resize(t.len() + n, b'x')).is_some()
}

/// No more than `most`, which a count can say.
fn stretch_numbers(f: &mut Field, n: usize, most: usize) -> bool {
    match f {
        Field::Oids(oids) => oids.resize((oids.len() + n / 4).min(most), 23),
        Field::Formats(formats) => formats.resize(formats.len() + n / 2, 1),
        _ => return false,
    }
    true
}

/// A content that cannot be written, where the kind has such a thing: a zero in a text, a zero code, an empty name, another target, a list too long.
pub fn spoiled(r: &mut Rng, c: &Content) -> Content {
    let mut c = c.clone();
    let n = c.fields.len();
    if n == 0 {
        return c;
    }
    let i = r.below(n);
    let long = r.one_in(64);
    let kind = numbered(c.kind);
    let too_many = kind.counts.most() + 1;
    match &mut c.fields[i] {
        Field::Text(t) => {
            let at = r.below(t.len() + 1);
            t.insert(at, 0);
        }
        Field::Num(b) if matches!(kind.body.get(i), Some(Part::Target | Part::Status)) => *b = r.below(256) as i64,
        Field::RowFields(fields) if !fields.is_empty() => fields[0].name.push(0),
        Field::Errors(es) if !es.is_empty() && r.one_in(2) => es[0].0 = 0,
        Field::Errors(es) if !es.is_empty() => es[0].1.insert(0, 0),
        Field::Pairs(ps) if !ps.is_empty() => match r.below(3) {
            0 => last(ps).0.clear(),
            1 => ps[0].0.push(0),
            _ => ps[0].1.push(0),
        },
        Field::Oids(o) if long => o.resize(too_many, 1),
        Field::Formats(f) if long => f.resize(too_many, 1),
        Field::Values(v) if long => v.resize(too_many, None),
        _ => {}
    }
    c
}

/// Arguments of an encoder that are no content of the kind, where they can be: lengths, codes and names that do not fit each other.
pub fn misgiven(r: &mut Rng, c: &Content) -> Given {
    let mut g = model::given(c);
    let number = *r.pick(&[-2, -1, 0, 1, i32::MAX, i32::MIN]);
    match r.below(8) {
        0 if !g.lengths.is_empty() => *last(&mut g.lengths) = number,
        1 if !g.sizes.is_empty() => *last(&mut g.sizes) = number as u32,
        2 if !g.sizes.is_empty() => drop(g.sizes.pop()),
        3 if !g.codes.is_empty() => drop(g.codes.pop()),
        4 if !g.row_fields.is_empty() => {
            let far = *r.pick(&[0, 1, g.joined.len(), g.joined.len() + 1, usize::MAX]);
            let field = last(&mut g.row_fields);
            *(if r.one_in(2) { &mut field.start } else { &mut field.len }) = far;
        }
        5 => drop(g.joined.pop()),
        // the same sum: a start-up's empty value becomes an empty name
        6 if !g.sizes.is_empty() => g.sizes.rotate_left(1),
        _ => g.joined.push(r.next() as u8),
    }
    g
}

fn last<T>(xs: &mut [T]) -> &mut T {
    xs.last_mut().expect("a list that is not empty")
}
