//! Random frames of every kind, written here by docs/FORMAT.md, read and written again; bytes at random, which no call may fall over; and rows
//! that are built by calls at random. TUSWERAM_CASES says how many frames of each kind there are, and how many rows.

mod common;

use common::kinds::Part::{self, *};
use common::kinds::{CODED, KINDS};
use common::{round_trip, set_length};
use tusweram::*;

/// splitmix64: the same frames everywhere.
struct Random(u64);

impl Random {
    fn next(&mut self) -> u64 {
        self.0 = self.0.wrapping_add(0x9e37_79b9_7f4a_7c15);
        let mut z = self.0;
        z = (z ^ (z >> 30)).wrapping_mul(0xbf58_476d_1ce4_e5b9);
        z = (z ^ (z >> 27)).wrapping_mul(0x94d0_49bb_1331_11eb);
        z ^ (z >> 31)
    }

    fn below(&mut self, n: usize) -> usize {
        (self.next() % n as u64) as usize
    }

    fn of(&mut self, bytes: &[u8]) -> u8 {
        bytes[self.below(bytes.len())]
    }

    fn size(&mut self) -> usize {
        match self.below(8) {
            0 | 1 => 0,
            2 => 15 + self.below(3),
            3 => 63 + self.below(3),
            _ => self.below(9),
        }
    }
}

fn bytes(r: &mut Random, n: usize, out: &mut Vec<u8>) {
    out.extend((0..n).map(|_| if r.below(4) == 0 { r.of(&[0, 255, 128]) } else { r.next() as u8 }));
}

fn text(r: &mut Random, out: &mut Vec<u8>) {
    let n = r.size();
    out.extend((0..n).map(|_| 1 + r.below(255) as u8));
    out.push(0);
}

/// Items until a zero byte stands in place of one: no item begins with it, so a byte that is not zero stands before its texts.
fn ended(r: &mut Random, texts: &[Part], out: &mut Vec<u8>) {
    for _ in 0..r.below(6) {
        out.push(1 + r.below(255) as u8);
        parts(r, texts, out);
    }
    out.push(0);
}

fn part(r: &mut Random, part: Part, out: &mut Vec<u8>) {
    match part {
        Text => text(r, out),
        Rest => {
            let n = r.size();
            bytes(r, n, out)
        }
        Bytes(n) => bytes(r, n, out),
        One(set) => out.push(r.of(set)),
        List(items) => {
            let n = r.below(6);
            out.extend_from_slice(&(n as u16).to_be_bytes());
            (0..n).for_each(|_| parts(r, items, out));
        }
        Value if r.below(4) == 0 => out.extend_from_slice(&[255; 4]),
        Value => {
            let n = r.size();
            out.extend_from_slice(&(n as u32).to_be_bytes());
            bytes(r, n, out)
        }
        Errors => ended(r, &[Text], out),
        Pairs => ended(r, &[Text, Text], out),
    }
}

fn parts(r: &mut Random, body: &[Part], out: &mut Vec<u8>) {
    body.iter().for_each(|p| part(r, *p, out));
}

/// A kind: its mode, its header with no length yet, and its body.
type Row = (Mode, Vec<u8>, &'static [Part]);

fn rows() -> Vec<Row> {
    let typed = KINDS.iter().map(|&(mode, byte, body)| (mode, vec![byte, 0, 0, 0, 0], body));
    let coded = CODED.iter().map(|&(mode, code, body)| (mode, [[0; 4], code.to_be_bytes()].concat(), body));
    typed.chain(coded).collect()
}

fn frame(r: &mut Random, (mode, header, body): &Row) -> Vec<u8> {
    let mut out = header.clone();
    parts(r, body, &mut out);
    set_length(*mode, &mut out);
    out
}

fn cases() -> usize {
    std::env::var("TUSWERAM_CASES").ok().and_then(|n| n.parse().ok()).unwrap_or(200)
}

#[test]
fn round_trips() {
    let mut r = Random(1);
    for row in rows() {
        for _ in 0..cases() {
            round_trip(row.0, &frame(&mut r, &row));
        }
    }
}

/// A changed byte, a cut with the length mended, or a header with bytes at random behind it.
fn damaged(r: &mut Random, row: &Row) -> Vec<u8> {
    let mut buf = frame(r, row);
    let header = row.1.len();
    match r.below(3) {
        0 => {
            let at = r.below(buf.len());
            buf[at] = r.next() as u8;
        }
        1 => {
            buf.truncate(r.below(buf.len() + 1).max(header));
            set_length(row.0, &mut buf);
        }
        _ => {
            buf.truncate(header);
            let n = r.below(40);
            bytes(r, n, &mut buf);
            set_length(row.0, &mut buf);
        }
    }
    buf
}

/// The calls that are given a place: what is there is inside the buffer and in order, and what is not is refused at the place or behind it.
fn at_a_place(buf: &[u8], at: usize) {
    let [status, number, place, next, _, start, len, ..] = ffi::value(buf, at);
    assert!(if status == 0 { next <= buf.len() && start + len <= next } else { number >= 6 && place == at });
    let [status, number, place, next, _, start, len, ..] = ffi::field(buf, at);
    assert!(if status == 0 { next <= buf.len() && start + len + 19 == next } else { number == 6 && place >= at });
    let [status, number, place, next, _, _, start, len, ..] = ffi::error_field(buf, at);
    assert!(if status == 0 { next <= buf.len() && start + len + 1 == next } else { number == 6 && place >= at });
    let [status, number, place, next, _, name, name_len, value, value_len, ..] = ffi::pair(buf, at);
    let in_order = name == at && name + name_len + 1 == value && value + value_len + 1 == next;
    assert!(if status == 0 { next <= buf.len() && in_order } else { number == 6 && place >= at });
}

/// Whatever is answered of a damaged frame, its parts and lists can be walked, and what is taken is written again as it was.
#[test]
fn damage() {
    let mut r = Random(2);
    let mut taken = 0;
    let rows = rows();
    for i in 0..cases() * rows.len() {
        let row = &rows[i % rows.len()];
        let buf = damaged(&mut r, row);
        if let Decoded::Record(_, n) = decode(row.0, &buf) {
            round_trip(row.0, &buf[..n]);
            taken += 1;
        }
        for mode in (0..=5).map(|number| Mode::try_from(number).unwrap()) {
            let _ = format!("{:?} {:?}", decode(mode, &buf), element(mode, &buf, r.below(4), r.below(8)));
        }
        for at in [r.below(buf.len() + 8), r.next() as usize] {
            at_a_place(&buf, at);
        }
        let (mut starts, mut lengths) = ([0; 3], [0; 3]);
        let _ = data_row(&buf, &mut starts, &mut lengths);
    }
    assert!(taken > 0);
}

type Columns = Vec<Option<Vec<u8>>>;

/// A row's frame, by docs/FORMAT.md 4.
fn row_frame(columns: &Columns) -> Vec<u8> {
    let mut out = b"D\0\0\0\0".to_vec();
    out.extend_from_slice(&(columns.len() as i16).to_be_bytes());
    for column in columns {
        out.extend_from_slice(&column.as_ref().map_or(-1, |value| value.len() as i32).to_be_bytes());
        out.extend_from_slice(column.as_deref().unwrap_or_default());
    }
    set_length(Mode::Backend, &mut out);
    out
}

/// The columns that a room begins with, where they and their frame are of these numbers.
fn columns_of(room: &[u8], columns: usize, size: usize) -> Option<Columns> {
    match decode(Mode::Backend, room) {
        Decoded::Record(Message::DataRow(row), n) if (row.data.len(), n) == (columns, size) => {
            Some(row.data.iter().map(|value| value.map(<[u8]>::to_vec)).collect())
        }
        _ => None,
    }
}

/// A call on a row.
enum Call {
    Append(Option<Vec<u8>>),
    DropLast,
    Finish,
}

/// A call on a row of that size; now and then with a value that the limit just allows, or a byte shorter or longer.
fn call(r: &mut Random, size: usize) -> Call {
    match r.below(40) {
        0 => Call::Append(Some(vec![0; 1048572 - size + r.below(3)])),
        1..=9 => Call::DropLast,
        10..=12 => Call::Finish,
        13..=19 => Call::Append(None),
        _ => {
            let mut value = Vec::new();
            let n = r.size();
            bytes(r, n, &mut value);
            Call::Append(Some(value))
        }
    }
}

/// What a call makes of the columns, or the refusal's number, by docs/FORMAT.md 12.
fn expected(call: &Call, columns: Option<Columns>, room: usize) -> Result<Columns, u8> {
    let mut columns = columns.ok_or(10)?;
    match call {
        Call::Append(_) if columns.len() == 32767 => return Err(10),
        Call::Append(value) => columns.push(value.clone()),
        Call::DropLast => return columns.pop().ok_or(11).map(|_| columns),
        Call::Finish => return Ok(columns),
    }
    let size: usize = 7 + columns.iter().map(|column| 4 + column.as_ref().map_or(0, Vec::len)).sum::<usize>();
    match size {
        _ if size - 1 > 1048576 => Err(4),
        _ if size > room => Err(9),
        _ => Ok(columns),
    }
}

fn run(call: &Call, row: &mut RowBuilder) -> Result<(), Refusal> {
    match call {
        Call::Append(value) => row.append_option(value.as_deref()),
        Call::DropLast => row.drop_last(),
        Call::Finish => row.finish().map(|_| ()),
    }
}

/// The frame of the columns stands in the row, is what the encoder writes, and is read as the columns, whatever follows it.
fn same_columns(columns: &Columns, row: &RowBuilder) {
    let frame = row_frame(columns);
    assert_eq!((row.columns(), row.size()), (columns.len(), frame.len()));
    assert_eq!(row.finish(), Ok(&frame[..]));
    let lengths: Vec<_> = columns.iter().map(|column| column.as_ref().map_or(-1, |value| value.len() as i32)).collect();
    let joined: Vec<_> = columns.iter().flatten().flatten().copied().collect();
    let mut out = vec![0; frame.len()];
    assert_eq!(encode::data_row(&lengths, &joined, &mut out), Ok(frame.len()));
    assert_eq!(out, frame);
    let Message::DataRow(read) = round_trip(Mode::Backend, &frame) else { panic!("another kind") };
    assert!(read.data.iter().eq(columns.iter().map(Option::as_deref)));
}

/// Columns appended and dropped, with one builder in one room.
#[test]
fn rows_built() {
    let mut r = Random(3);
    let mut seen = [0; 12];
    for _ in 0..cases() {
        let mut room = Vec::new();
        let n = 7 + r.below(200);
        bytes(&mut r, n, &mut room);
        let mut want = room.clone();
        let mut columns = Columns::new();
        let mut row = RowBuilder::begin(&mut room).unwrap();
        want[..7].copy_from_slice(b"D\0\0\0\x06\0\0");
        for _ in 0..r.below(30) {
            let call = call(&mut r, row.size());
            let answer = run(&call, &mut row);
            match expected(&call, Some(columns.clone()), n) {
                Ok(next) => {
                    assert_eq!(answer, Ok(()));
                    columns = next;
                    let frame = row_frame(&columns);
                    want[..frame.len()].copy_from_slice(&frame);
                    seen[0] += 1;
                }
                Err(number) => {
                    assert_eq!(answer, Err(Refusal { number, place: 0 }));
                    seen[number as usize] += 1;
                }
            }
            same_columns(&columns, &row);
        }
        assert_eq!(row.into_room(), want);
    }
    assert!([0, 4, 9, 11].iter().all(|number| seen[*number] > 0), "{seen:?}");
}

/// Rooms and numbers that may be any: rows with bytes behind them, some of them damaged, and numbers that are theirs or are not.
#[test]
fn rows_taken_up() {
    let mut r = Random(4);
    let kind = rows().into_iter().find(|row| row.0 == Mode::Backend && row.1[0] == b'D').unwrap();
    let mut seen = [0; 12];
    for _ in 0..cases() * 10 {
        let mut room = if r.below(2) == 0 { frame(&mut r, &kind) } else { damaged(&mut r, &kind) };
        let (columns, size) = match r.below(4) {
            0 => (r.below(6), r.below(room.len() + 2)),
            _ => (room.get(6).map_or(0, |count| *count as usize), room.len()),
        };
        let n = r.size();
        bytes(&mut r, n, &mut room);
        let mut want = room.clone();
        let call = call(&mut r, size);
        let expected = expected(&call, columns_of(&room, columns, size), room.len());
        let mut row = RowBuilder::resume(&mut room, columns, size);
        let answer = run(&call, &mut row);
        match expected {
            Ok(next) => {
                assert_eq!(answer, Ok(()));
                same_columns(&next, &row);
                let frame = row_frame(&next);
                want[..frame.len()].copy_from_slice(&frame);
                seen[0] += 1;
            }
            Err(number) => {
                assert_eq!(answer, Err(Refusal { number, place: 0 }));
                assert_eq!((row.columns(), row.size()), (columns, size));
                seen[number as usize] += 1;
            }
        }
        assert_eq!(room, want);
    }
    assert!([0, 4, 9, 10, 11].iter().all(|number| seen[*number] > 0), "{seen:?}");
}
