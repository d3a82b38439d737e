//! The boundary itself: the library's fifteen functions, over numbers and slices, as safe functions. All `unsafe` code of the crate is here.
//!
//! The other modules give these numbers their names; a host needs this one only to see an answer as it is.
//!
//! An answer is a [`Row`] of sixteen numbers, zeros behind what it has:
//!
//! | number | what it is |
//! |---|---|
//! | 0 | the status: 0 there is an answer, 1 need-more, 2 refused |
//! | 1, 2 | the refusal's number and place |
//! | 3 | the bytes consumed; of [`value`], [`field`], [`error_field`] and [`pair`], the next place |
//! | 4 | the kind, or the sort of an element |
//! | 5 .. | its fields: a part as its start and length, a list as its start and count, a signed number as its 32 bits |
//!
//! A row that is built is a [`Building`] of two numbers, which a call renews, and the call's answer is 0, or the refusal's number.

use crate::FieldDescription;
use core::mem::MaybeUninit;

/// An answer: sixteen numbers.
pub type Row = [usize; 16];

/// A row that is built: its columns, and the size of its frame with the type byte.
pub type Building = [usize; 2];

// Nothing checks these declarations against the Rattle source: tests/boundary.rs calls each with known answers.
extern "C" {
    fn tusweram_decode(mode: u8, buf: *const u8, buf_len: usize, out: *mut usize);
    fn tusweram_element(mode: u8, buf: *const u8, buf_len: usize, list: usize, number: usize, out: *mut usize);
    fn tusweram_value(frame: *const u8, frame_len: usize, at: usize, out: *mut usize);
    fn tusweram_field(frame: *const u8, frame_len: usize, at: usize, out: *mut usize);
    fn tusweram_error_field(frame: *const u8, frame_len: usize, at: usize, out: *mut usize);
    fn tusweram_pair(frame: *const u8, frame_len: usize, at: usize, out: *mut usize);
    fn tusweram_data_row(
        buf: *const u8,
        buf_len: usize,
        starts: *mut usize,
        starts_len: usize,
        lengths: *mut i32,
        lengths_len: usize,
        out: *mut usize,
    );
    fn tusweram_encode(
        kind: usize,
        byte: u8,
        first: i32,
        second: i32,
        one: *const u8,
        one_len: usize,
        two: *const u8,
        two_len: usize,
        out: *mut u8,
        out_len: usize,
    ) -> usize;
    fn tusweram_encode_lists(
        kind: usize,
        format: i8,
        one: *const u8,
        one_len: usize,
        two: *const u8,
        two_len: usize,
        joined: *const u8,
        joined_len: usize,
        words: *const u32,
        words_len: usize,
        lengths: *const i32,
        lengths_len: usize,
        formats: *const i16,
        formats_len: usize,
        results: *const i16,
        results_len: usize,
        out: *mut u8,
        out_len: usize,
    ) -> usize;
    fn tusweram_encode_row_description(
        fields: *const FieldDescription,
        fields_len: usize,
        run: *const u8,
        run_len: usize,
        out: *mut u8,
        out_len: usize,
    ) -> usize;
    fn tusweram_row_begin(row: *mut usize, room: *mut u8, room_len: usize) -> u8;
    fn tusweram_row_append(row: *mut usize, room: *mut u8, room_len: usize, value: *const u8, value_len: usize) -> u8;
    fn tusweram_row_append_null(row: *mut usize, room: *mut u8, room_len: usize) -> u8;
    fn tusweram_row_drop_last(row: *mut usize, room: *mut u8, room_len: usize) -> u8;
    fn tusweram_row_finish(row: *const usize, room: *const u8, room_len: usize) -> u8;
}

// Why each call is safe: every pointer and its length are those of a slice or array that lives through the call, a `&mut` is of no other
// argument, the library keeps no pointer, and it is proved to read and write inside its slices for every input, and to write all sixteen numbers
// of an answer.

fn answer(call: impl FnOnce(*mut usize)) -> Row {
    let mut out = MaybeUninit::<Row>::uninit();
    call(out.as_mut_ptr().cast());
    unsafe { out.assume_init() }
}

/// The first message of a buffer.
pub fn decode(mode: u8, buf: &[u8]) -> Row {
    answer(|out| unsafe { tusweram_decode(mode, buf.as_ptr(), buf.len(), out) })
}

/// An element of a list of the buffer's first message.
pub fn element(mode: u8, buf: &[u8], list: usize, number: usize) -> Row {
    answer(|out| unsafe { tusweram_element(mode, buf.as_ptr(), buf.len(), list, number, out) })
}

/// The value at a place of a frame.
pub fn value(frame: &[u8], at: usize) -> Row {
    answer(|out| unsafe { tusweram_value(frame.as_ptr(), frame.len(), at, out) })
}

/// The field of a RowDescription at a place of a frame.
pub fn field(frame: &[u8], at: usize) -> Row {
    answer(|out| unsafe { tusweram_field(frame.as_ptr(), frame.len(), at, out) })
}

/// The field of an error or a notice at a place of a frame. At the zero byte that ends the list it reads on: go by the list's count.
pub fn error_field(frame: &[u8], at: usize) -> Row {
    answer(|out| unsafe { tusweram_error_field(frame.as_ptr(), frame.len(), at, out) })
}

/// The pair of a start-up packet at a place of a frame. At the zero byte that ends the list it reads an empty name: go by the list's count.
pub fn pair(frame: &[u8], at: usize) -> Row {
    answer(|out| unsafe { tusweram_pair(frame.as_ptr(), frame.len(), at, out) })
}

/// The values of a DataRow, the buffer's first message: where each starts, and its length (-1 for NULL).
pub fn data_row(buf: &[u8], starts: &mut [usize], lengths: &mut [i32]) -> Row {
    let (first, last) = ((starts.as_mut_ptr(), starts.len()), (lengths.as_mut_ptr(), lengths.len()));
    answer(|out| unsafe { tusweram_data_row(buf.as_ptr(), buf.len(), first.0, first.1, last.0, last.1, out) })
}

/// What a message with no list is written from; which of these a kind has, [`crate::encode`] shows.
#[derive(Clone, Copy, Debug, Default)]
pub struct Plain<'a> {
    pub byte: u8,
    pub first: i32,
    pub second: i32,
    pub one: &'a [u8],
    pub two: &'a [u8],
}

/// Writes a message of a kind with no list. The answer: the bytes written, or the largest number less the refusal's.
pub fn encode(kind: usize, given: Plain<'_>, out: &mut [u8]) -> usize {
    let Plain { byte, first, second, one, two } = given;
    unsafe { tusweram_encode(kind, byte, first, second, one.as_ptr(), one.len(), two.as_ptr(), two.len(), out.as_mut_ptr(), out.len()) }
}

/// What a message with lists is written from; which of these a kind has, [`crate::encode`] shows.
#[derive(Clone, Copy, Debug, Default)]
pub struct Lists<'a> {
    pub format: i8,
    pub one: &'a [u8],
    pub two: &'a [u8],
    pub joined: &'a [u8],
    pub words: &'a [u32],
    pub lengths: &'a [i32],
    pub formats: &'a [i16],
    pub results: &'a [i16],
}

/// Writes a message of a kind with lists, but for RowDescription. The answer is as of [`encode`].
pub fn encode_lists(kind: usize, given: Lists<'_>, out: &mut [u8]) -> usize {
    let Lists { format, one, two, joined, words, lengths, formats, results } = given;
    unsafe {
        tusweram_encode_lists(
            kind,
            format,
            one.as_ptr(),
            one.len(),
            two.as_ptr(),
            two.len(),
            joined.as_ptr(),
            joined.len(),
            words.as_ptr(),
            words.len(),
            lengths.as_ptr(),
            lengths.len(),
            formats.as_ptr(),
            formats.len(),
            results.as_ptr(),
            results.len(),
            out.as_mut_ptr(),
            out.len(),
        )
    }
}

/// Writes a RowDescription. The answer is as of [`encode`].
pub fn encode_row_description(fields: &[FieldDescription], run: &[u8], out: &mut [u8]) -> usize {
    unsafe { tusweram_encode_row_description(fields.as_ptr(), fields.len(), run.as_ptr(), run.len(), out.as_mut_ptr(), out.len()) }
}

/// Begins a row with no column at the room's start. The answer of this and of the four below: 0, or the refusal's number.
pub fn row_begin(row: &mut Building, room: &mut [u8]) -> u8 {
    unsafe { tusweram_row_begin(row.as_mut_ptr(), room.as_mut_ptr(), room.len()) }
}

/// Appends a value to the row at the room's start.
pub fn row_append(row: &mut Building, room: &mut [u8], value: &[u8]) -> u8 {
    unsafe { tusweram_row_append(row.as_mut_ptr(), room.as_mut_ptr(), room.len(), value.as_ptr(), value.len()) }
}

/// The same of NULL.
pub fn row_append_null(row: &mut Building, room: &mut [u8]) -> u8 {
    unsafe { tusweram_row_append_null(row.as_mut_ptr(), room.as_mut_ptr(), room.len()) }
}

/// Drops the row's last column.
pub fn row_drop_last(row: &mut Building, room: &mut [u8]) -> u8 {
    unsafe { tusweram_row_drop_last(row.as_mut_ptr(), room.as_mut_ptr(), room.len()) }
}

/// Whether the room begins with the row.
pub fn row_finish(row: &Building, room: &[u8]) -> u8 {
    unsafe { tusweram_row_finish(row.as_ptr(), room.as_ptr(), room.len()) }
}
