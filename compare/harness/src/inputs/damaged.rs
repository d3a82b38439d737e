//! What damage makes of a frame.

use super::Rng;
use crate::judging::Run;
use crate::model::{framing, Framing};

/// The frame's length word anew, `by` more.
pub fn with_length(mode: u8, f: &[u8], by: i32) -> Vec<u8> {
    let at = framing(mode).expect("a mode of frames").length_at();
    let mut f = f.to_vec();
    let n = i32::from_be_bytes(f[at..at + 4].try_into().unwrap()).wrapping_add(by);
    f[at..at + 4].copy_from_slice(&n.to_be_bytes());
    f
}

/// A frame as it is, alone and with another behind it, and what damage makes of it: at each byte, or at four of them.
pub fn around(run: &mut Run, r: &mut Rng, mode: u8, f: &[u8], next: &[u8], all: bool) {
    run.from("well-formed frames");
    run.decode(mode, f);
    run.from("two frames joined");
    run.decode(mode, &[f, next].concat());
    let tries = if all { f.len() } else { 4 };
    let place = |r: &mut Rng, i: usize| if all { i } else { r.below(f.len()) };
    run.from("one byte changed");
    for i in 0..tries {
        let at = place(r, i);
        changed(run, r, mode, f, next, at);
    }
    run.from("cut");
    for i in 0..tries {
        run.decode(mode, &f[..place(r, i)]);
    }
    let framing = framing(mode).expect("a mode of frames");
    if framing == Framing::Bare {
        return;
    }
    run.from("cut, the length word mended");
    for i in 0..tries {
        let at = place(r, i);
        if at >= framing.body_at() {
            mended(run, mode, f, next, at);
        }
    }
    run.from("length off by one");
    for by in [-1, 1, 2] {
        misstated(run, r, mode, &with_length(mode, f, by), next);
    }
}

/// One byte changed.
fn changed(run: &mut Run, r: &mut Rng, mode: u8, f: &[u8], next: &[u8], at: usize) {
    let byte = match r.below(6) {
        0 => 0,
        1 => 255,
        2 => f[at].wrapping_add(1),
        3 => f[at].wrapping_sub(1),
        4 => f[at] ^ 128,
        _ => r.next() as u8,
    };
    replaced(run, mode, f, next, at, &[byte]);
}

/// Other bytes at a place, alone and with another frame behind.
pub fn replaced(run: &mut Run, mode: u8, f: &[u8], next: &[u8], at: usize, bytes: &[u8]) {
    let mut f = f.to_vec();
    f[at..at + bytes.len()].copy_from_slice(bytes);
    run.decode(mode, &f);
    f.extend_from_slice(next);
    run.decode(mode, &f);
}

/// Cut at a place, with a length that says so: alone, with the rest of the frame behind, and with another frame behind.
pub fn mended(run: &mut Run, mode: u8, f: &[u8], next: &[u8], at: usize) {
    let f = with_length(mode, f, at as i32 - f.len() as i32);
    run.decode(mode, &f[..at]);
    run.decode(mode, &f);
    run.decode(mode, &[&f[..at], next].concat());
}

/// A frame whose length is another: alone, with another frame behind, and with one byte behind.
fn misstated(run: &mut Run, r: &mut Rng, mode: u8, f: &[u8], next: &[u8]) {
    run.decode(mode, f);
    run.decode(mode, &[f, next].concat());
    run.decode(mode, &[f, &[r.next() as u8]].concat());
}
