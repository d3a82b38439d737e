//! Rows that are built column by column: histories of calls, and rows around the limits.

use super::Rng;
use crate::judging::{Place, Run};
use crate::model::{self, row_content, Column, Count, Step};

/// Histories of calls. The room that each leaves is decoded, like any other input.
pub fn histories(run: &mut Run, r: &mut Rng, turns: u64) {
    run.from("rows built column by column");
    for _ in 0..turns {
        let room = room(r);
        let mut place = Place { row: [r.below(3), r.below(20)], lent: room.len(), room, columns: None };
        if !r.one_in(16) {
            run.step(&mut place, &Step::Begin);
        }
        for _ in 0..r.below(24) {
            match r.below(8) {
                0 => disturbed(run, r, &mut place),
                _ => {
                    let call = call(r);
                    run.step(&mut place, &call);
                }
            }
        }
        run.decode(1, &place.room);
    }
}

/// Other bytes, in which a row is to be built.
fn room(r: &mut Rng) -> Vec<u8> {
    let most = *r.pick(&[9, 64, 64, 400, 400, 400, 400, 400]);
    let n = r.below(most);
    (0..n).map(|_| r.next() as u8).collect()
}

fn call(r: &mut Rng) -> Step {
    match r.below(40) {
        0 => Step::Begin,
        1..=7 => Step::DropLast,
        8..=12 => Step::Finish,
        13..=18 => Step::Append(None),
        19 => Step::Append(Some(vec![7; r.below(400)])),
        _ => Step::Append(Some(r.bytes())),
    }
}

/// Calls with another row, with a byte of the room changed, or with a part of the room; then all is as before.
fn disturbed(run: &mut Run, r: &mut Rng, place: &mut Place) {
    let kept = place.clone();
    let mut first = call(r);
    match r.below(3) {
        0 => forge(r, place),
        1 => change(r, place),
        _ => first = shorten(r, place, first),
    }
    run.step(place, &first);
    for _ in 0..r.below(3) {
        let call = call(r);
        run.step(place, &call);
    }
    *place = kept;
}

/// One of the two numbers is another.
fn forge(r: &mut Rng, place: &mut Place) {
    let i = r.below(2);
    let n = place.row[i];
    let any = r.below(1000);
    place.row[i] = *r.pick(&[n.wrapping_add(1), n.wrapping_sub(1), 0, 1, 6, 7, 32_767, 32_768, 65_536 + n, usize::MAX, any]);
    place.columns = None;
}

/// A byte of the row is another, or at times one behind it.
fn change(r: &mut Rng, place: &mut Place) {
    let most = if r.one_in(8) { place.room.len() } else { place.row[1].min(place.room.len()) };
    if most > 0 {
        let at = r.below(most);
        let any = r.next() as u8;
        let byte = place.room[at];
        place.room[at] = *r.pick(&[byte.wrapping_add(1), byte.wrapping_sub(1), byte ^ 128, 0, 255, any]);
        place.columns = None;
    }
}

/// The room is lent up to the end of the row with one column more, a byte less, or any part of it. The call to make: for the end, the append.
fn shorten(r: &mut Rng, place: &mut Place, call: Step) -> Step {
    if r.one_in(4) {
        place.lent = r.below(place.room.len() + 1);
        return call;
    }
    let value = (!r.one_in(4)).then(|| r.bytes());
    let end = place.row[1] + 4 + value.as_ref().map_or(0, Vec::len);
    place.lent = (end - r.below(2)).min(place.room.len());
    Step::Append(value)
}

/// Rows of 32,766 columns, and rows that a column makes as long as the limit allows: one column more is refused, and so is one byte more.
pub fn around_the_limits(run: &mut Run, r: &mut Rng, turns: usize) {
    run.from("rows around the limits, built on");
    for _ in 0..turns {
        let most = Count::Signed.most();
        let many: Vec<Column> = (1..most).map(|_| if r.one_in(2) { None } else { Some(vec![r.next() as u8; r.below(4)]) }).collect();
        built_on(run, &many, &[Some(r.bytes()), None], 64);
        // 10 before 4, and before 9
        let long = [&stretched(&many[1..], 0)[..], &[None]].concat();
        built_on(run, &long, &[None], 0);
        let few: Vec<Column> = (0..1 + r.below(4)).map(|_| Some(r.bytes())).collect();
        let left = r.below(3);
        let near = stretched(&few, left);
        for value in [vec![], vec![5; left], vec![5; left + 1]].map(Some) {
            // 4 before 9
            for room in [left + 5, left + 4, left + 3, 0] {
                built_on(run, &near, std::slice::from_ref(&value), room);
            }
        }
        built_on(run, &near[..0], &[Some(vec![7; LIMIT - 10]), None], LIMIT);
        built_on(run, &near[..0], &[Some(vec![7; LIMIT - 9]), None], LIMIT);
    }
}

/// The limit of a row's length word.
const LIMIT: usize = 1_048_576;

/// The columns with a longer first one, so that the length word, with a column of `left` bytes more, is at the limit.
fn stretched(columns: &[Column], left: usize) -> Vec<Column> {
    let mut columns = [&[Some(vec![])], columns].concat();
    let size = frame(&columns).len();
    columns[0] = Some(vec![9; LIMIT + 1 - size - 4 - left]);
    columns
}

fn frame(columns: &[Column]) -> Vec<u8> {
    model::encode(&model::given(&row_content(columns)), usize::MAX).expect("a row that can be written")
}

/// A row that stands there already, in a room with some bytes more: columns are appended, one is dropped, and the row is finished.
fn built_on(run: &mut Run, columns: &[Column], more: &[Column], behind: usize) {
    let frame = frame(columns);
    let row = [columns.len(), frame.len()];
    let room = [&frame[..], &vec![0xa5; behind]].concat();
    let mut place = Place { row, lent: room.len(), room, columns: Some(columns.to_vec()) };
    for column in more {
        run.step(&mut place, &Step::Append(column.clone()));
    }
    for call in [Step::Finish, Step::DropLast, Step::Append(None), Step::Finish] {
        run.step(&mut place, &call);
    }
    run.decode(1, &place.room);
    // what a call refuses, an encoder refuses: the Rust by the entries of encoding
    run.encode(&row_content(&[columns, more].concat()));
}
