//! Rows that are built column by column. A call of the library must answer and leave what the model says; and where it succeeds, the row must be the
//! one that the Rust and the library's encoder write of its columns, and its columns those that the calls before have made.

use super::Run;
use crate::model::{self, Built, Column, Step};
use crate::{oracle, ours};

/// A row that is being built, in a room of which some bytes are lent.
#[derive(Clone, Debug)]
pub struct Place {
    pub row: model::Building,
    pub room: Vec<u8>,
    pub lent: usize,
    /// What the calls have made; None where something else has changed the row or the room.
    pub columns: Option<Vec<Column>>,
}

impl Place {
    /// The columns that a successful call makes.
    fn columns_after(&self, call: &Step) -> Option<Vec<Column>> {
        let mut columns = self.columns.clone();
        match (call, &mut columns) {
            (Step::Begin, _) => return Some(vec![]),
            (Step::Append(column), Some(columns)) => columns.push(column.clone()),
            (Step::DropLast, Some(columns)) => drop(columns.pop()),
            _ => {}
        }
        columns
    }
}

impl Run {
    /// One call: its answer, the two numbers, and every byte of the room, those that are not lent too.
    pub fn step(&mut self, place: &mut Place, call: &Step) {
        self.steps += 1;
        let before = place.clone();
        let expected = model::step(call, place.row, &place.room[..place.lent]);
        let answer = ours::step(call, &mut place.row, &mut place.room[..place.lent]);
        let (number, row, room) = match &expected {
            Ok(built) => (0, built.row(), [&built.frame[..], &before.room[built.frame.len()..]].concat()),
            Err(number) => (*number, before.row, before.room.clone()),
        };
        if (answer, place.row, &place.room) != (number, row, &room) {
            let detail = format!("{call:?} of {:?}: ours {answer} {:?}\n  model {number} {row:?}", before.row, place.row);
            self.fail("a row is built otherwise", 1, &before.room, detail);
        }
        match expected {
            Ok(built) => {
                self.made(&before, call, &built);
                place.columns = Some(built.columns);
            }
            Err(number) => *self.steps_refused.entry(number).or_default() += 1,
        }
    }

    /// After a call that succeeded: the columns, and what the Rust and the library's encoder write of them.
    fn made(&mut self, before: &Place, call: &Step, built: &Built) {
        if before.columns_after(call).is_some_and(|columns| columns != built.columns) {
            self.fail("other columns than the calls have made", 1, &built.frame, format!("{call:?} of {before:?}"));
        }
        let theirs = oracle::encode_columns(&built.columns);
        if theirs.as_ref() != Ok(&built.frame) {
            self.fail("not the row that the Rust writes", 1, &built.frame, format!("{call:?} of {before:?}\n  the Rust {theirs:?}"));
        }
        let mut out = vec![0; built.frame.len()];
        let written = ours::encode(&model::given(&model::row_content(&built.columns)), &mut out);
        if (written, &out) != (Ok(out.len()), &built.frame) {
            self.fail("not the row that the encoder writes", 1, &built.frame, format!("{call:?} of {before:?}\n  {written:?} {out:?}"));
        }
    }

    pub(super) fn end_of_rows(&self) {
        let refused: u64 = self.steps_refused.values().sum();
        println!("rows column by column: {} calls, {} of them refused", self.steps, refused);
        for (number, n) in &self.steps_refused {
            println!("{n:>12}  refused with {number}");
        }
    }
}
