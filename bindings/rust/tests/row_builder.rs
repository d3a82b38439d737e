//! A row that is built column by column: histories worked out by hand from docs/FORMAT.md 12, with every byte of the room. tests/random.rs has
//! histories at random.

use tusweram::*;

/// The length's limit, the frame of that length, and the most columns.
const LIMIT: usize = 1048576;
const FULL: usize = LIMIT + 1;
const MOST: usize = 32767;

/// A value and NULL, in 17 bytes.
const ROW: &[u8] = b"D\0\0\0\x10\0\x02\0\0\0\x02ab\xff\xff\xff\xff";

type Call = fn(&mut RowBuilder) -> Result<(), Refusal>;

/// The calls that look at the room.
const CALLS: [Call; 6] = [
    |row| row.append(b"x"),
    |row| row.append(b""),
    |row| row.append_null(),
    |row| row.append_option(None),
    |row| row.drop_last(),
    |row| row.finish().map(|_| ()),
];

fn refusal(number: u8) -> Refusal {
    Refusal { number, place: 0 }
}

/// A row in a room of its own, with the numbers that a host keeps.
struct Kept {
    room: Vec<u8>,
    columns: usize,
    size: usize,
}

impl Kept {
    /// A row that stands in a room, or does not.
    fn new(room: &[u8], columns: usize, size: usize) -> Self {
        Kept { room: room.to_vec(), columns, size }
    }

    /// A row with no column, in a room of so many bytes, each 0x55 before.
    fn begun(n: usize) -> Self {
        let mut room = vec![0x55; n];
        let row = RowBuilder::begin(&mut room).unwrap();
        let (columns, size) = (row.columns(), row.size());
        Kept { room, columns, size }
    }

    fn call(&mut self, call: impl FnOnce(&mut RowBuilder) -> Result<(), Refusal>) -> Result<(), Refusal> {
        let mut row = RowBuilder::resume(&mut self.room, self.columns, self.size);
        let answer = call(&mut row);
        (self.columns, self.size) = (row.columns(), row.size());
        answer
    }

    /// A call that succeeds: the numbers, and all bytes of the room.
    fn builds(&mut self, call: impl FnOnce(&mut RowBuilder) -> Result<(), Refusal>, columns: usize, size: usize, room: &[u8]) {
        assert_eq!(self.call(call), Ok(()));
        assert_eq!((self.columns, self.size), (columns, size));
        assert_eq!(self.room, room);
        assert_eq!(RowBuilder::resume(&mut self.room, columns, size).finish(), Ok(&room[..size]));
    }

    /// A call that is refused: the numbers and the room are as they were.
    fn refuses(&mut self, call: impl FnOnce(&mut RowBuilder) -> Result<(), Refusal>, number: u8) {
        let before = (self.columns, self.size, self.room.clone());
        assert_eq!(self.call(call), Err(refusal(number)));
        assert!((self.columns, self.size) == (before.0, before.1) && self.room == before.2, "refused with {number}, and changed");
    }

    /// The room does not begin with the row: each call is refused.
    fn is_no_row(&mut self) {
        CALLS.iter().for_each(|call| self.refuses(call, 10));
    }

    /// The room begins with the row, and handing it out changes nothing.
    fn is_row(&mut self) {
        let before = self.room.clone();
        assert_eq!(RowBuilder::resume(&mut self.room, self.columns, self.size).finish(), Ok(&before[..self.size]));
        assert!(self.room == before);
    }
}

#[test]
fn a_history() {
    let mut row = Kept::begun(20);
    assert_eq!((row.columns, row.size), (0, 7));
    assert_eq!(row.room, b"D\0\0\0\x06\0\0UUUUUUUUUUUUU");
    row.refuses(|row| row.drop_last(), 11);
    row.is_row();
    row.builds(|row| row.append(b"ab"), 1, 13, b"D\0\0\0\x0c\0\x01\0\0\0\x02abUUUUUUU");
    row.builds(|row| row.append_null(), 2, 17, b"D\0\0\0\x10\0\x02\0\0\0\x02ab\xff\xff\xff\xffUUU");
    row.refuses(|row| row.append_null(), 9);
    row.refuses(|row| row.append(b""), 9);
    // a dropped column's bytes stay, and are written over by the next one, as far as it goes
    row.builds(|row| row.drop_last(), 1, 13, b"D\0\0\0\x0c\0\x01\0\0\0\x02ab\xff\xff\xff\xffUUU");
    row.builds(|row| row.append(b""), 2, 17, b"D\0\0\0\x10\0\x02\0\0\0\x02ab\0\0\0\0UUU");
    row.builds(|row| row.drop_last(), 1, 13, b"D\0\0\0\x0c\0\x01\0\0\0\x02ab\0\0\0\0UUU");
    row.builds(|row| row.drop_last(), 0, 7, b"D\0\0\0\x06\0\0\0\0\0\x02ab\0\0\0\0UUU");
    row.refuses(|row| row.drop_last(), 11);
    row.is_row();
    row.builds(|row| row.append_option(Some(b"\0xy")), 1, 14, b"D\0\0\0\x0d\0\x01\0\0\0\x03\0xy\0\0\0UUU");
    row.builds(|row| row.drop_last(), 0, 7, b"D\0\0\0\x06\0\0\0\0\0\x03\0xy\0\0\0UUU");
    row.builds(|row| row.append_option(None), 1, 11, b"D\0\0\0\x0a\0\x01\xff\xff\xff\xff\0xy\0\0\0UUU");
    row.builds(|row| row.append(b"12345"), 2, 20, b"D\0\0\0\x13\0\x02\xff\xff\xff\xff\0\0\0\x0512345");
    // 4 comes before 9
    let much = vec![0; LIMIT];
    row.refuses(|row| row.append(&much[..LIMIT - 23]), 9);
    row.refuses(|row| row.append(&much[..LIMIT - 22]), 4);
}

/// One builder from the beginning to the end, and the room behind it.
#[test]
fn a_builder() {
    let mut room = [0x55; 19];
    let mut row = RowBuilder::begin(&mut room).unwrap();
    assert_eq!(row.finish(), Ok(&b"D\0\0\0\x06\0\0"[..]));
    assert_eq!(row.append(b"ab"), Ok(()));
    assert_eq!(row.finish(), Ok(&b"D\0\0\0\x0c\0\x01\0\0\0\x02ab"[..]));
    assert_eq!(row.append(b"cde"), Err(refusal(9)));
    assert_eq!(row.append(b"cd"), Ok(()));
    assert_eq!(row.drop_last(), Ok(()));
    assert_eq!(row.append_null(), Ok(()));
    assert_eq!(row.finish(), Ok(ROW));
    assert_eq!((row.columns(), row.size()), (2, 17));
    assert_eq!(format!("{row:?}"), "RowBuilder { columns: 2, size: 17, .. }");
    let size = row.size();
    let (frame, rest) = row.into_room().split_at_mut(size);
    assert_eq!((&*frame, &*rest), (ROW, &b"cd"[..]));
    // a new row, in what the old one left
    let row = RowBuilder::begin(&mut room).unwrap();
    assert_eq!((row.columns(), row.size()), (0, 7));
    assert_eq!(room, *b"D\0\0\0\x06\0\0\0\0\0\x02ab\xff\xff\xff\xffcd");
}

/// Rooms of each length, up to one that the row fits in.
#[test]
fn rooms() {
    for n in 0..7 {
        let mut room = vec![0x55; n];
        assert_eq!(RowBuilder::begin(&mut room).map(|_| ()), Err(refusal(9)));
        assert!(room.iter().all(|byte| *byte == 0x55));
        Kept::new(&room, 0, n).is_no_row();
        Kept::new(&room, 0, 7).is_no_row();
    }
    assert_eq!(RowBuilder::begin(&mut []).map(|_| ()), Err(refusal(9)));
    for n in 7..18 {
        let mut row = Kept::begun(n);
        if n < 13 {
            row.refuses(|row| row.append(b"ab"), 9);
            continue;
        }
        assert_eq!(row.call(|row| row.append(b"ab")), Ok(()));
        if n < 17 {
            row.refuses(|row| row.append_null(), 9);
            row.refuses(|row| row.append(b""), 9);
            continue;
        }
        assert_eq!(row.call(|row| row.append_null()), Ok(()));
        assert_eq!(row.room, ROW);
    }
}

/// A row that did not fit goes on in a longer room.
#[test]
fn a_longer_room() {
    let mut row = Kept::begun(16);
    assert_eq!(row.call(|row| row.append(b"ab")), Ok(()));
    row.refuses(|row| row.append_null(), 9);
    row.room.push(0);
    row.builds(|row| row.append_null(), 2, 17, ROW);
}

/// Each byte of a small row, changed to each other byte: only those of its value can be.
#[test]
fn a_changed_room() {
    for (at, old) in ROW.iter().enumerate() {
        for byte in (0..=255).filter(|byte| byte != old) {
            let mut row = Kept::new(&[ROW, b"UUUUU"].concat(), 2, 17);
            row.room[at] = byte;
            if at == 11 || at == 12 {
                row.is_row();
            } else {
                row.is_no_row();
            }
        }
    }
    // another row with the same numbers, an empty value and `ab`, is a row: what is dropped is its last column
    let mut row = Kept::new(b"D\0\0\0\x10\0\x02\0\0\0\0\0\0\0\x02ab", 2, 17);
    row.builds(|row| row.drop_last(), 1, 11, b"D\0\0\0\x0a\0\x01\0\0\0\0\0\0\0\x02ab");
    row.builds(|row| row.drop_last(), 0, 7, b"D\0\0\0\x06\0\0\0\0\0\0\0\0\0\x02ab");
}

#[test]
fn forged_numbers() {
    const NUMBERS: [usize; 18] =
        [0, 1, 2, 3, 7, 13, 16, 17, 18, 22, 23, MOST, MOST + 1, 65538, FULL, usize::MAX / 2, usize::MAX - 3, usize::MAX];
    for columns in NUMBERS {
        for size in NUMBERS {
            let mut row = Kept::new(&[ROW, b"UUUUU"].concat(), columns, size);
            if (columns, size) == (2, 17) {
                row.is_row();
            } else {
                row.is_no_row();
            }
        }
    }
    // a row that is longer than the room
    for n in 0..17 {
        Kept::new(&ROW[..n], 2, 17).is_no_row();
        Kept::new(&ROW[..n], 2, n).is_no_row();
    }
    // 10 comes before 11: with no column, a size that is another
    Kept::new(b"D\0\0\0\x06\0\0U", 0, 8).is_no_row();
}

#[test]
fn other_kinds() {
    for (room, columns) in [
        (&b"t\0\0\0\x0e\0\x02\0\0\0\x17\xff\xff\xff\xfe"[..], 2),
        (b"G\0\0\0\x0b\x01\0\x02\0\x01\xff\xff", 2),
        (b"T\0\0\0\x06\0\0", 0),
        (b"t\0\0\0\x06\0\0", 0),
        (b"d\0\0\0\x06\0\0", 0),
        // the frontend sends Describe by the same type byte
        (b"D\0\0\0\x06S\0", 0),
    ] {
        Kept::new(room, columns, room.len()).is_no_row();
    }
}

/// The frame's length up to 1,048,576, and one above.
#[test]
fn the_limit() {
    let much = vec![b'a'; LIMIT];
    let mut row = Kept::begun(FULL);
    row.refuses(|row| row.append(&much[..LIMIT - 9]), 4);
    assert_eq!(row.call(|row| row.append(&much[..LIMIT - 10])), Ok(()));
    assert_eq!((row.columns, row.size), (1, FULL));
    assert_eq!(row.room[..11], *b"D\0\x10\0\0\0\x01\0\x0f\xff\xf6");
    assert!(row.room[11..] == much[..LIMIT - 10]);
    row.is_row();
    row.refuses(|row| row.append_null(), 4);
    row.refuses(|row| row.append(b""), 4);
    row.refuses(|row| row.append(b"a"), 4);
    // a byte of room too few
    let mut row = Kept::begun(FULL - 1);
    row.refuses(|row| row.append(&much[..LIMIT - 10]), 9);
    row.refuses(|row| row.append(&much[..LIMIT - 9]), 4);
    // NULL, behind a value that leaves 4 bytes, and behind one that leaves 3
    let mut row = Kept::begun(FULL + 8);
    assert_eq!(row.call(|row| row.append(&much[..LIMIT - 14])), Ok(()));
    assert_eq!(row.call(|row| row.append_null()), Ok(()));
    assert_eq!((row.columns, row.size), (2, FULL));
    row.is_row();
    assert_eq!(row.room[FULL - 4..], *b"\xff\xff\xff\xffUUUUUUUU");
    let mut row = Kept::begun(FULL + 8);
    assert_eq!(row.call(|row| row.append(&much[..LIMIT - 13])), Ok(()));
    row.refuses(|row| row.append_null(), 4);
}

/// 32,767 columns, and one more.
#[test]
fn all_columns() {
    let size = 7 + 4 * MOST;
    let mut room = vec![0x55; size + 9];
    assert_eq!(encode::data_row(&[0; MOST], b"", &mut room), Ok(size));
    let mut row = Kept::new(&room, MOST, size);
    row.is_row();
    row.refuses(|row| row.append(b""), 10);
    row.refuses(|row| row.append_null(), 10);
    // 10 comes before 4 and 9
    row.refuses(|row| row.append(&[0; LIMIT]), 10);
    row.refuses(|row| row.append(b"123456"), 10);
    assert_eq!(row.call(|row| row.drop_last()), Ok(()));
    assert_eq!((row.columns, row.size), (MOST - 1, size - 4));
    assert_eq!(row.room[..7], *b"D\0\x01\xff\xfe\x7f\xfe");
    row.refuses(|row| row.append(b"1234567890"), 9);
    assert_eq!(row.call(|row| row.append(b"123456789")), Ok(()));
    assert_eq!((row.columns, row.size), (MOST, size + 9));
    assert_eq!(row.room[..7], *b"D\0\x02\0\x0b\x7f\xff");
    assert_eq!(row.room[size - 4..], *b"\0\0\0\x09123456789");
    row.refuses(|row| row.append_null(), 10);
    row.is_row();
    // all bytes of 32,768 empty values are no row
    let mut room = vec![0; size + 4];
    room[..6].copy_from_slice(b"D\0\x02\0\x06\x80");
    Kept::new(&room, MOST + 1, size + 4).is_no_row();
}
