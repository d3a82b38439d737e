//! A DataRow that is built column by column, at the start of a lent room.
//!
//! After a call that succeeds, the room begins with the frame of the columns so far, and every later byte is as it was; those of a dropped column
//! stay where they stood. A refused call changes nothing. Its place is 0, and its number the first of these:
//!
//! - Refusal 10: the room does not begin with the row; or, appending, the row has 32,767 columns.
//! - Refusal 11: there is no column to drop.
//! - Refusal 4: the frame's length would be above 1,048,576.
//! - Refusal 9: the frame would be longer than the room.
//!
//! The room begins with the row where decoding it gives a DataRow of that many columns and takes that many bytes. Every call but
//! [`RowBuilder::begin`] looks. It finds another room only after [`RowBuilder::resume`], since a builder holds its room. To look is a pass over the
//! lengths of all columns: `n` columns, appended one by one, cost in the order of `n` times `n`. Where all values are at hand,
//! [`encode::data_row`](crate::encode::data_row) writes the row at once.

use core::fmt;

use crate::ffi::{self, Building};
use crate::numbers::part;
use crate::Refusal;

/// A DataRow that is being built in a lent room.
///
/// ```
/// use tusweram::RowBuilder;
///
/// let mut room = [0; 64];
/// let mut row = RowBuilder::begin(&mut room)?;
/// row.append(b"ab")?;
/// row.append_null()?;
/// row.append(b"not this one")?;
/// row.drop_last()?;
/// assert_eq!((row.columns(), row.size()), (2, 17));
/// assert_eq!(row.finish()?, b"D\0\0\0\x10\0\x02\0\0\0\x02ab\xff\xff\xff\xff");
/// # Ok::<(), tusweram::Refusal>(())
/// ```
pub struct RowBuilder<'a> {
    room: &'a mut [u8],
    row: Building,
}

// What a call answers: 0, or a refusal's number.
fn answer(number: u8) -> Result<(), Refusal> {
    match number {
        0 => Ok(()),
        _ => Err(Refusal { number, place: 0 }),
    }
}

impl<'a> RowBuilder<'a> {
    /// Writes a row with no column, 7 bytes.
    pub fn begin(room: &'a mut [u8]) -> Result<Self, Refusal> {
        let mut row = [0; 2];
        answer(ffi::row_begin(&mut row, room))?;
        Ok(RowBuilder { room, row })
    }

    /// Goes on with a row that stands in a room, by the numbers that [`columns`](RowBuilder::columns) and [`size`](RowBuilder::size) gave. Nothing is
    /// looked at here: where the room does not begin with such a row, each call is refused with 10.
    ///
    /// ```
    /// use tusweram::{refusal, RowBuilder};
    ///
    /// let mut room = vec![0; 16];
    /// let mut row = RowBuilder::begin(&mut room)?;
    /// row.append(b"ab")?;
    /// assert_eq!(row.append_null().unwrap_err().number, refusal::OUTPUT_TOO_SHORT);
    ///
    /// // the same row in a longer room
    /// let (columns, size) = (row.columns(), row.size());
    /// room.resize(32, 0);
    /// let mut row = RowBuilder::resume(&mut room, columns, size);
    /// row.append_null()?;
    /// assert_eq!(row.finish()?, b"D\0\0\0\x10\0\x02\0\0\0\x02ab\xff\xff\xff\xff");
    /// # Ok::<(), tusweram::Refusal>(())
    /// ```
    pub fn resume(room: &'a mut [u8], columns: usize, size: usize) -> Self {
        RowBuilder { room, row: [columns, size] }
    }

    /// One column more, behind the last: a value, which may be empty.
    pub fn append(&mut self, value: &[u8]) -> Result<(), Refusal> {
        answer(ffi::row_append(&mut self.row, self.room, value))
    }

    /// The same of NULL.
    pub fn append_null(&mut self) -> Result<(), Refusal> {
        answer(ffi::row_append_null(&mut self.row, self.room))
    }

    /// The same of a value as [`Values`](crate::Values) has it: `None` is NULL.
    pub fn append_option(&mut self, value: Option<&[u8]>) -> Result<(), Refusal> {
        match value {
            Some(value) => self.append(value),
            None => self.append_null(),
        }
    }

    /// One column fewer: the last goes.
    pub fn drop_last(&mut self) -> Result<(), Refusal> {
        answer(ffi::row_drop_last(&mut self.row, self.room))
    }

    /// The row's frame, to hand it out. The row can be built on.
    pub fn finish(&self) -> Result<&[u8], Refusal> {
        answer(ffi::row_finish(&self.row, self.room))?;
        Ok(part(self.room, 0, self.size()))
    }

    /// How many columns there are.
    pub fn columns(&self) -> usize {
        self.row[0]
    }

    /// How many bytes the frame has, with its type byte.
    pub fn size(&self) -> usize {
        self.row[1]
    }

    /// Gives the room back, as it is: the row's frame is its first [`size`](RowBuilder::size) bytes.
    pub fn into_room(self) -> &'a mut [u8] {
        self.room
    }
}

impl fmt::Debug for RowBuilder<'_> {
    fn fmt(&self, f: &mut fmt::Formatter<'_>) -> fmt::Result {
        f.debug_struct("RowBuilder").field("columns", &self.columns()).field("size", &self.size()).finish_non_exhaustive()
    }
}
