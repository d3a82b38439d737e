//! Fields as the parts of the Rust's messages; None where a text is no UTF-8, or a name stands there twice.

use crate::content::{joined, Field};
use bytes::{BufMut, Bytes, BytesMut};
use pgwire::messages::data::{DataRow, FieldDescription};
use pgwire::messages::startup::Startup;

pub fn utf8(f: &Field) -> Option<String> {
    let Field::Text(t) = f else { panic!("{f:?}") };
    string(t)
}

fn string(bytes: &[u8]) -> Option<String> {
    String::from_utf8(bytes.to_vec()).ok()
}

/// An empty name is the Rust's None.
pub fn named(f: &Field) -> Option<Option<String>> {
    let s = utf8(f)?;
    Some(if s.is_empty() { None } else { Some(s) })
}

pub fn int(f: &Field) -> i64 {
    let Field::Num(n) = f else { panic!("{f:?}") };
    *n
}

pub fn formats(f: &Field) -> Vec<i16> {
    let Field::Formats(v) = f else { panic!("{f:?}") };
    v.clone()
}

pub fn oids(f: &Field) -> Vec<u32> {
    let Field::Oids(v) = f else { panic!("{f:?}") };
    v.clone()
}

fn values(f: &Field) -> &[Option<Vec<u8>>] {
    let Field::Values(v) = f else { panic!("{f:?}") };
    v
}

pub fn parameters(f: &Field) -> Vec<Option<Bytes>> {
    values(f).iter().map(|v| v.clone().map(Bytes::from)).collect()
}

pub fn joined_values(f: &Field) -> BytesMut {
    BytesMut::from(&joined(values(f))[..])
}

/// One more column of a row, as the Rust has it built: the value behind its length, and the columns counted beside the bytes.
pub fn append(row: &mut DataRow, column: Option<&[u8]>) {
    match column {
        None => row.data.put_i32(-1),
        Some(value) => {
            row.data.put_i32(value.len() as i32);
            row.data.put_slice(value);
        }
    }
    row.field_count += 1;
}

/// How many elements a list of formats or values has, as the Rust says it beside the list.
pub fn width(f: &Field) -> i16 {
    f.counted() as i16
}

pub fn rest(f: &Field) -> Bytes {
    let Field::Bytes(b) = f else { panic!("{f:?}") };
    Bytes::from(b.clone())
}

pub fn error_fields(f: &Field) -> Option<Vec<(u8, String)>> {
    let Field::Errors(v) = f else { panic!("{f:?}") };
    v.iter().map(|(c, s)| Some((*c, string(s)?))).collect()
}

pub fn row_descriptions(f: &Field) -> Option<Vec<FieldDescription>> {
    let Field::RowFields(v) = f else { panic!("{f:?}") };
    v.iter()
        .map(|f| {
            let name = string(&f.name)?;
            Some(FieldDescription::new(name, f.table_id, f.column_id, f.type_id, f.type_size, f.type_modifier, f.format_code))
        })
        .collect()
}

/// A start-up of protocol 3.0. Its parameters are a map, which has each name once.
pub fn started(f: &Field) -> Option<Startup> {
    let Field::Pairs(v) = f else { panic!("{f:?}") };
    let mut startup = Startup::new();
    for (name, value) in v {
        if startup.parameters.insert(string(name)?, string(value)?).is_some() {
            return None;
        }
    }
    Some(startup)
}
