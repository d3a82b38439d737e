//! pgwire 0.41.0, called as it is. It panics on much of what is damaged, so every call stands in catch_unwind.

mod kinds;
mod read;
mod write;

pub use kinds::{left_out, limit};
pub use write::append;

use crate::content::Content;
use crate::model::{framing, numbered, Framing};
use bytes::BytesMut;
use pgwire::error::{PgWireError, PgWireResult};
use pgwire::messages::cancel::CancelRequest;
use pgwire::messages::data::DataRow;
use pgwire::messages::SslNegotiationMetaMessage as Asked;
use pgwire::messages::{DecodeContext, Message, PgWireBackendMessage as Back, PgWireFrontendMessage as Front, ProtocolVersion};
use std::hint::black_box;
use std::panic::{catch_unwind, AssertUnwindSafe};
use std::sync::atomic::{AtomicBool, Ordering};

/// The Rust is being called: its panics are not shown.
pub static CALLED: AtomicBool = AtomicBool::new(false);

fn caught<T>(call: impl FnOnce() -> T) -> Option<T> {
    CALLED.store(true, Ordering::Relaxed);
    let answer = catch_unwind(AssertUnwindSafe(call)).ok();
    CALLED.store(false, Ordering::Relaxed);
    answer
}

/// What the Rust answers.
#[derive(Clone, PartialEq, Eq, Debug)]
pub enum Seen {
    Record(Content),
    /// A message that is left out.
    Other,
    NeedMore,
    /// The error's name.
    Refused(&'static str),
    Panicked,
    /// Not called: it would take quadratic time.
    NotCalled,
}

fn name(e: &PgWireError) -> &'static str {
    match e {
        PgWireError::InvalidMessageType(_) => "InvalidMessageType",
        PgWireError::MessageTooLarge(_, _) => "MessageTooLarge",
        PgWireError::InvalidElementCount(_, _, _) => "InvalidElementCount",
        PgWireError::InvalidTransactionStatus(_) => "InvalidTransactionStatus",
        PgWireError::InvalidCancelRequest => "InvalidCancelRequest",
        PgWireError::InvalidSecretKey => "InvalidSecretKey",
        PgWireError::InvalidStartupMessage => "InvalidStartupMessage",
        _ => "another error",
    }
}

pub fn context(mode: u8) -> DecodeContext {
    // Keys are compared under 3.0, where they have four bytes.
    let mut c = DecodeContext::new(ProtocolVersion::PROTOCOL3_0);
    c.awaiting_frontend_ssl = mode == 5;
    c.awaiting_frontend_startup = mode == 5;
    c.awaiting_backend_ssl_response = mode == 3;
    c.awaiting_backend_gss_response = mode == 4;
    c
}

/// A first packet as the Rust's own server reads it: where it is no request for encryption, the start-up is awaited.
fn first_packet(bytes: &mut BytesMut, ctx: &DecodeContext) -> PgWireResult<Option<Front>> {
    match Front::decode(bytes, ctx)? {
        Some(Front::SslNegotiation(Asked::None)) => {
            let mut startup = context(5);
            startup.awaiting_frontend_ssl = false;
            Front::decode(bytes, &startup)
        }
        other => Ok(other),
    }
}

/// The answer, and how many bytes are gone from the buffer.
pub fn decode(mode: u8, buf: &[u8]) -> (Seen, usize) {
    let mut bytes = BytesMut::from(buf);
    let answer = caught(|| {
        let ctx = context(mode);
        match mode {
            0 => Front::decode(&mut bytes, &ctx).map(|m| m.map(kinds::read_client)),
            2 => CancelRequest::decode(&mut bytes, &ctx).map(|m| m.map(Front::CancelRequest).map(kinds::read_client)),
            5 => first_packet(&mut bytes, &ctx).map(|m| m.map(kinds::read_client)),
            _ => Back::decode(&mut bytes, &ctx).map(|m| m.map(kinds::read_back)),
        }
    });
    let seen = match answer {
        None => return (Seen::Panicked, 0),
        Some(Ok(Some(Some(c)))) => Seen::Record(c),
        Some(Ok(Some(None))) => Seen::Other,
        Some(Ok(None)) => Seen::NeedMore,
        Some(Err(e)) => Seen::Refused(name(&e)),
    };
    (seen, buf.len() - bytes.len())
}

pub enum Either {
    Front(Front),
    Back(Back),
}

/// What a client can send, first packets too, as such a message; all else as a server's.
pub fn message(c: &Content) -> Option<Either> {
    let mode = numbered(c.kind).mode;
    match mode == 0 || framing(mode) == Some(Framing::Untyped) {
        true => kinds::made_client(c).map(Either::Front),
        false => kinds::made_back(c).map(Either::Back),
    }
}

/// What the Rust writes of a content; None where it has no form for it (text that is no UTF-8).
pub fn encode(c: &Content) -> Option<Result<Vec<u8>, Seen>> {
    message(c).map(|m| written(&m))
}

fn written(m: &Either) -> Result<Vec<u8>, Seen> {
    let mut out = BytesMut::new();
    let done = caught(|| match m {
        Either::Front(m) => m.encode(&mut out),
        Either::Back(m) => m.encode(&mut out),
    });
    match done {
        None => Err(Seen::Panicked),
        Some(Err(e)) => Err(Seen::Refused(name(&e))),
        Some(Ok(())) => Ok(out.to_vec()),
    }
}

/// What the Rust writes of a row whose columns are given to it one by one.
pub fn encode_columns(columns: &[Option<Vec<u8>>]) -> Result<Vec<u8>, Seen> {
    let mut row = DataRow::default();
    columns.iter().for_each(|column| append(&mut row, column.as_deref()));
    written(&Either::Back(Back::DataRow(row)))
}

// ---- one call as it is, for the counting of instructions

/// Of a frame that is known to be well-formed.
pub fn decode_bare(mode: u8, mut bytes: BytesMut, ctx: &DecodeContext) {
    match mode {
        0 => drop(black_box(Front::decode(&mut bytes, ctx))),
        2 => drop(black_box(CancelRequest::decode(&mut bytes, ctx))),
        5 => drop(black_box(first_packet(&mut bytes, ctx))),
        _ => drop(black_box(Back::decode(&mut bytes, ctx))),
    }
}

/// Of a message that can be written.
pub fn encode_bare(m: &Either, out: &mut BytesMut) {
    let _ = black_box(match m {
        Either::Front(m) => m.encode(out),
        Either::Back(m) => m.encode(out),
    });
}
