//! A row that is built column by column: what each call costs, and a whole row beside the encoder's and the Rust's.

use super::{Costs, Points, Single};
use crate::model::{self, Building};
use crate::{oracle, ours};
use bytes::BytesMut;
use pgwire::messages::data::DataRow;
use pgwire::messages::Message;
use std::hint::black_box;

const ROOM: usize = 20_000;
const VALUE: &[u8] = b"abcdefgh";

/// A row of `n` columns of 8 bytes, built by a call for each column, and by the Rust.
struct Whole {
    columns: usize,
    ours: f64,
    rust: f64,
}

/// The row of `n` columns of 8 bytes, and a room that begins with it.
fn standing(n: usize) -> (Building, Vec<u8>) {
    let columns = vec![Some(VALUE.to_vec()); n];
    let mut room = model::encode(&model::given(&model::row_content(&columns)), ROOM).expect("a row");
    let row = [n, room.len()];
    room.resize(ROOM, 0);
    (row, room)
}

/// A call that changes a row of `n` columns. Before each the row is set back: that is counted by itself, and taken off.
fn changing(p: &mut Points, empty: f64, name: String, n: usize, call: impl Fn(&mut Building, &mut [u8]) -> u8) -> Single {
    let (start, mut room) = standing(n);
    let head: [u8; 7] = room[..7].try_into().expect("a head");
    let mut row = start;
    let set_back = |row: &mut Building, room: &mut [u8]| {
        *row = start;
        room[..7].copy_from_slice(&head);
    };
    let alone = p.point(1, || set_back(black_box(&mut row), black_box(&mut room)));
    let both = p.point(1, || {
        set_back(black_box(&mut row), black_box(&mut room));
        black_box(call(&mut row, &mut room));
    });
    Single { name, cost: both - alone + empty }
}

/// What is counted.
pub struct Counted {
    calls: Vec<Single>,
    whole: Vec<Whole>,
}

/// It is not inlined, so that it changes no other point's loop.
#[inline(never)]
pub fn run(p: &mut Points, empty: f64) -> Counted {
    Counted { calls: calls(p, empty), whole: whole(p) }
}

/// Each call.
fn calls(p: &mut Points, empty: f64) -> Vec<Single> {
    let (mut row, mut room) = standing(0);
    let begin = p.point(1, || {
        black_box(ours::row_begin(black_box(&mut row), black_box(&mut room)));
    });
    let mut all = vec![Single { name: "begin".into(), cost: begin }];
    for n in [1, 10, 100, 900] {
        let append = |row: &mut Building, room: &mut [u8]| ours::row_append(row, room, black_box(VALUE));
        all.push(changing(p, empty, format!("append of 8 bytes as column {n}"), n - 1, append));
    }
    all.push(changing(p, empty, "append of NULL as column 10".into(), 9, ours::row_append_null));
    for n in [10, 100, 900] {
        all.push(changing(p, empty, format!("drop of column {n}"), n, ours::row_drop_last));
    }
    for n in [10, 100, 900] {
        let (row, room) = standing(n);
        let cost = p.point(1, || {
            black_box(ours::row_finish(black_box(&row), black_box(&room)));
        });
        all.push(Single { name: format!("finish of {n} columns"), cost });
    }
    all
}

/// Whole rows: begun, each column appended, finished; and by the Rust, each column put behind the last, then encoded, its buffers kept.
fn whole(p: &mut Points) -> Vec<Whole> {
    let mut all = Vec::new();
    for n in [10, 100] {
        let values = black_box(vec![VALUE; n]);
        let (mut row, mut room) = standing(0);
        let ours = p.point(1, || {
            let mut refused = ours::row_begin(&mut row, &mut room);
            for value in &values {
                refused |= ours::row_append(&mut row, &mut room, value);
            }
            assert!(refused | ours::row_finish(&row, &room) == 0);
        });
        let (mut theirs, mut out) = (DataRow::new(BytesMut::with_capacity(ROOM), 0), BytesMut::with_capacity(ROOM));
        let rust = p.point(1, || {
            theirs.data.clear();
            theirs.field_count = 0;
            out.clear();
            for value in &values {
                oracle::append(&mut theirs, Some(value));
            }
            let _ = black_box(theirs.encode(&mut out));
        });
        all.push(Whole { columns: n, ours, rust });
    }
    all
}

/// The two tables; the encoder's figures, and the Rust's of values that are joined already, are those of the generated frames.
#[inline(never)]
pub fn shown(counted: &Counted, generated: &[Costs]) {
    println!("\n### A row built column by column\n\n| Call | Instructions |\n|---|---|");
    counted.calls.iter().for_each(|s| println!("| {} | {:.0} |", s.name, s.cost));
    println!(
        "\n| Row | begin, an append for each column, finish | the encoder, at once | pgwire, column by column | pgwire, joined already |"
    );
    println!("|---|---|---|---|---|");
    for w in &counted.whole {
        let name = format!("DataRow, strings of 8, {} elements", w.columns);
        let at_once = generated.iter().find(|c| c.name == name).expect("a row of as many columns");
        println!(
            "| {} columns of 8 bytes | {:.0} | {:.0} | {:.0} | {:.0} |",
            w.columns, w.ours, at_once.encode, w.rust, at_once.rust_encode
        );
    }
}

/// The slopes: what a call costs more for each column that is there.
#[inline(never)]
pub fn growth(counted: &Counted) {
    let cost = |name: String| counted.calls.iter().find(|s| s.name == name).map_or(0.0, |s| s.cost);
    for what in ["append of 8 bytes as column N", "drop of column N", "finish of N columns"] {
        let slope = (cost(what.replace('N', "900")) - cost(what.replace('N', "100"))) / 800.0;
        println!("| a row that is built, one more column there: {what} | {slope:.2} | | | |");
    }
}
