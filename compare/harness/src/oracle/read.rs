//! The parts of the Rust's messages as fields.

use crate::content::{Field, RowField};
use bytes::Bytes;
use pgwire::messages::data::RowDescription;
use pgwire::messages::startup::SecretKey;
use std::collections::BTreeMap;

pub fn num(n: impl Into<i64>) -> Field {
    Field::Num(n.into())
}

pub fn text(s: &str) -> Field {
    Field::Text(s.as_bytes().to_vec())
}

/// The Rust's None is an empty name.
pub fn maybe(s: &Option<String>) -> Field {
    text(s.as_deref().unwrap_or_default())
}

pub fn nullable(values: &[Option<Bytes>]) -> Field {
    Field::Values(values.iter().map(|v| v.as_ref().map(|b| b.to_vec())).collect())
}

pub fn row_fields(m: &RowDescription) -> Field {
    let fields = m.fields.iter().map(|f| RowField {
        name: f.name.as_bytes().to_vec(),
        table_id: f.table_id,
        column_id: f.column_id,
        type_id: f.type_id,
        type_size: f.type_size,
        type_modifier: f.type_modifier,
        format_code: f.format_code,
    });
    Field::RowFields(fields.collect())
}

pub fn errors(fields: &[(u8, String)]) -> Field {
    Field::Errors(fields.iter().map(|(c, s)| (*c, s.as_bytes().to_vec())).collect())
}

pub fn pairs(parameters: &BTreeMap<String, String>) -> Field {
    Field::Pairs(parameters.iter().map(|(name, value)| (name.as_bytes().to_vec(), value.as_bytes().to_vec())).collect())
}

/// `columns` stands beside the list: it is compared too.
pub fn columns(columns: i16, formats: Vec<i16>) -> Field {
    assert!(columns as usize == formats.len(), "columns and the list differ");
    Field::Formats(formats)
}

/// Under 3.0 a number; what is none is equal to no field of ours.
pub fn key(key: &SecretKey) -> Field {
    match key {
        SecretKey::I32(k) => num(*k),
        SecretKey::Bytes(b) => Field::Bytes(b.to_vec()),
    }
}
