//! What decoding answers, and the order of its checks: FORMAT 3.

use super::frame::{Frame, Slot};
use super::kinds::{framing, kind_of, Framing, Kind, REFUSES};

#[derive(Clone, PartialEq, Eq, Debug)]
pub enum Answer {
    Record(&'static Kind, usize, Vec<Slot>),
    NeedMore,
    Refused(u8, usize),
}

/// A frame's kind, and where the frame ends; or the answer where there is none.
type Header = Result<(&'static Kind, usize), Answer>;

fn refuse<T>(number: u8, place: usize) -> Result<T, Answer> {
    Err(Answer::Refused(number, place))
}

fn word(bytes: &[u8]) -> i64 {
    i32::from_be_bytes(bytes[..4].try_into().unwrap()) as i64
}

fn header(mode: u8, buf: &[u8], limited: bool) -> Header {
    let Some(framing) = framing(mode) else { return refuse(1, 0) };
    if buf.len() < framing.tag_end() {
        return Err(Answer::NeedMore);
    }
    let Some(kind) = kind_of(mode, buf) else { return refuse(2, framing.tag_at()) };
    if framing == Framing::Bare {
        return Ok((kind, 1));
    }
    if buf.len() < framing.body_at() {
        return Err(Answer::NeedMore);
    }
    Ok((kind, end(kind, buf, limited)?))
}

/// Where a frame ends, by its length word.
fn end(kind: &Kind, buf: &[u8], limited: bool) -> Result<usize, Answer> {
    let at = kind.framing().length_at();
    let length = word(&buf[at..]);
    if length < kind.smallest {
        return refuse(3, at);
    }
    if limited && length > kind.limit {
        return refuse(4, at);
    }
    let end = at + length as usize;
    if buf.len() < end {
        return Err(Answer::NeedMore);
    }
    Ok(end)
}

pub fn decode(mode: u8, buf: &[u8]) -> Answer {
    decoded(mode, buf, true)
}

/// The same if there were no limits: what is compared where the Rust's limit is the larger one.
pub fn decode_unlimited(mode: u8, buf: &[u8]) -> Answer {
    decoded(mode, buf, false)
}

fn decoded(mode: u8, buf: &[u8], limited: bool) -> Answer {
    let (kind, end) = match header(mode, buf, limited) {
        Ok(header) => header,
        Err(answer) => return answer,
    };
    match Frame::new(&buf[..end], kind.framing().body_at()).body(kind) {
        // an answer's one field: whether it accepts
        Ok(_) if kind.framing() == Framing::Bare => Answer::Record(kind, end, vec![Slot::Num((buf[0] == REFUSES) as i64)]),
        Ok(slots) => Answer::Record(kind, end, slots),
        Err((number, place)) => Answer::Refused(number, place),
    }
}

/// What the first fault of a frame's body is in: the number of the body's part, and of it a "string", or a "number" (a value's length and a
/// value's bytes too).
pub fn fault(mode: u8, buf: &[u8]) -> (usize, &'static str) {
    let Ok((kind, end)) = header(mode, buf, false) else { return (0, "") };
    let mut frame = Frame::new(&buf[..end], kind.framing().body_at());
    let _ = frame.body(kind);
    (frame.field, frame.what)
}
