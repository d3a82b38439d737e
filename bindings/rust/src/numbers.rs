//! The numbers of elements at the boundary, as crates/host_layout/specs/LaidOut.antt has them, and what a number stands for.

pub mod sort {
    pub const OID: usize = 1;
    pub const FORMAT: usize = 2;
    pub const NULL: usize = 3;
    pub const VALUE: usize = 4;
    pub const FIELD: usize = 5;
    pub const ERROR_FIELD: usize = 6;
    pub const PAIR: usize = 7;
}

/// A part of a buffer; what reaches outside it is the empty part.
pub fn part(buf: &[u8], start: usize, len: usize) -> &[u8] {
    let end = start.saturating_add(len);
    buf.get(start..end).unwrap_or_default()
}

/// A signed number from its 32 bits.
pub fn word(bits: usize) -> i32 {
    bits as u32 as i32
}

/// The same, of a narrow one.
pub fn half(bits: usize) -> i16 {
    word(bits) as i16
}
