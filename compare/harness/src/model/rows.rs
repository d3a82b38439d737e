//! A row built column by column: FORMAT 12.

use super::decode::{decode, Answer};
use super::elements::content;
use super::encode::{encode, given};
use super::kinds::named;
use crate::content::{Content, Field};

/// A value, or NULL.
pub type Column = Option<Vec<u8>>;

/// The numbers that the caller keeps: the columns, and the size of their frame.
pub type Building = [usize; 2];

/// A call.
#[derive(Clone, PartialEq, Eq, Debug)]
pub enum Step {
    Begin,
    Append(Column),
    DropLast,
    Finish,
}

/// After a call that succeeded: the columns, and their frame, which the room then begins with.
pub struct Built {
    pub columns: Vec<Column>,
    pub frame: Vec<u8>,
}

impl Built {
    pub fn row(&self) -> Building {
        [self.columns.len(), self.frame.len()]
    }
}

pub fn row_content(columns: &[Column]) -> Content {
    Content { kind: named("DataRow").number, fields: vec![Field::Values(columns.to_vec())] }
}

/// The columns of the row, where the room begins with it.
fn columns_in(row: Building, room: &[u8]) -> Option<Vec<Column>> {
    let answer = decode(1, room);
    let size = match &answer {
        Answer::Record(kind, consumed, _) if kind.is_data_row() => *consumed,
        _ => return None,
    };
    let Some(Field::Values(columns)) = content(&answer, room)?.fields.pop() else { return None };
    ([columns.len(), size] == row).then_some(columns)
}

/// What a call makes of the row, or the number of its refusal; every refusal's place is 0.
pub fn step(call: &Step, row: Building, room: &[u8]) -> Result<Built, u8> {
    let mut columns = match call {
        Step::Begin => vec![],
        _ => columns_in(row, room).ok_or(10u8)?,
    };
    match call {
        Step::Begin | Step::Finish => {}
        Step::Append(column) => columns.push(column.clone()),
        Step::DropLast => drop(columns.pop().ok_or(11u8)?),
    }
    // 10 where a column is too many, then 4, then 9: as an encoder refuses the columns
    let frame = encode(&given(&row_content(&columns)), room.len())?;
    Ok(Built { columns, frame })
}
