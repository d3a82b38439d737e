//! What goes kind by kind: a row for each message of the Rust that is a kind here, and what the Rust's source says of types and limits.

use super::read::{columns, errors, key, maybe, nullable, num, pairs, row_fields, text};
use super::write::{error_fields, formats, int, joined_values, named, oids, parameters, rest, row_descriptions, started, utf8, width};
use crate::content::{Content, Field};
use pgwire::messages::response::{GssEncResponse, SslResponse, TransactionStatus};
use pgwire::messages::startup::{GssEncRequest, SecretKey, SslRequest};
use pgwire::messages::{cancel, copy, data, extendedquery as eq, response, simplequery, startup, terminate};
use pgwire::messages::{Message, PgWireBackendMessage as Back, PgWireFrontendMessage as Front, SslNegotiationMetaMessage as Asked};

/// The limits of a length, as the Rust's messages/mod.rs has them. A message has the one that its `max_message_length` names, else the first.
const SMALL: i64 = 10_000;
const LARGE: i64 = 0x3fff_fffe;
const SMALL_BACKEND: i64 = 30_000;
const LONG_BACKEND: i64 = i32::MAX as i64;

/// The type bytes that the Rust's decode knows from each side, in the order of its messages/mod.rs, whether they are kinds here or not.
const FROM_FRONTEND: &[u8] = b"pQPBCDEHSXdfc";
const FROM_BACKEND: &[u8] = b"RSKv123sCIZENAtTDndfcGHW";

/// A kind's number, and what the Rust's source says of its message.
struct Row {
    number: u8,
    limit: i64,
    type_byte: fn() -> Option<u8>,
}

/// The rows of one side: a kind's number, its message, the limit of its length; the fields that are read of it; how it is made of fields.
/// What both sides send is made as the frontend's alone.
macro_rules! rows {
    ($rows:ident, $read:ident, $made:ident, $side:ident:
     $($number:literal $from:ident::$message:ident $limit:ident, $m:pat => [$($field:expr),*] $(, $fields:pat => $make:expr)?;)*) => {
        const $rows: &[Row] = &[$(Row { number: $number, limit: $limit, type_byte: $from::$message::message_type }),*];

        /// The Rust's message as a content; None of one that is left out.
        pub fn $read(m: $side) -> Option<Content> {
            Some(match m {
                $($side::$message($m) => Content { kind: $number, fields: vec![$($field),*] },)*
                _ => return None,
            })
        }

        /// A content as the Rust's message; None where it has no form for it: text that is no UTF-8, a status that is none, a name twice.
        pub fn $made(c: &Content) -> Option<$side> {
            Some(match c.kind {
                $($($number => {
                    let $fields = &c.fields[..] else { panic!("{c:?}") };
                    $side::$message($make)
                })?)*
                number => panic!("no row makes the kind {number}"),
            })
        }
    };
}

rows! { FRONT, read_front, made_front, Front:
    1 eq::Parse LARGE, m => [maybe(&m.name), text(&m.query), Field::Oids(m.type_oids)],
        [name, query, types] => eq::Parse::new(named(name)?, utf8(query)?, oids(types));
    2 eq::Bind LARGE, m => [
            maybe(&m.portal_name), maybe(&m.statement_name),
            Field::Formats(m.parameter_format_codes), nullable(&m.parameters), Field::Formats(m.result_column_format_codes)
        ],
        [portal, statement, codes, values, results] =>
            eq::Bind::new(named(portal)?, named(statement)?, formats(codes), parameters(values), formats(results));
    3 eq::Close SMALL, m => [num(m.target_type), maybe(&m.name)],
        [target, name] => eq::Close::new(int(target) as u8, named(name)?);
    4 eq::Describe SMALL, m => [num(m.target_type), maybe(&m.name)],
        [target, name] => eq::Describe::new(int(target) as u8, named(name)?);
    5 eq::Execute SMALL, m => [maybe(&m.name), num(m.max_rows)],
        [name, rows] => eq::Execute::new(named(name)?, int(rows) as i32);
    6 eq::Flush SMALL, _ => [], [] => eq::Flush::new();
    7 eq::Sync SMALL, _ => [], [] => eq::Sync::new();
    8 copy::CopyDone SMALL, _ => [], [] => copy::CopyDone::new();
    9 copy::CopyData LARGE, m => [Field::Bytes(m.data.to_vec())], [data] => copy::CopyData::new(rest(data));
    10 copy::CopyFail SMALL, m => [text(&m.message)], [message] => copy::CopyFail::new(utf8(message)?);
    28 cancel::CancelRequest SMALL, m => [num(m.pid), key(&m.secret_key)],
        [pid, key] => cancel::CancelRequest::new(int(pid) as i32, SecretKey::I32(int(key) as i32));
    31 startup::Startup SMALL, m => [pairs(&m.parameters)], [pairs] => started(pairs)?;
    34 simplequery::Query LARGE, m => [text(&m.query)], [query] => simplequery::Query::new(utf8(query)?);
    35 terminate::Terminate SMALL, _ => [], [] => terminate::Terminate::new();
}

rows! { BACK, read_back, made_back, Back:
    8 copy::CopyDone SMALL, _ => [];
    9 copy::CopyData LARGE, m => [Field::Bytes(m.data.to_vec())];
    10 copy::CopyFail SMALL, m => [text(&m.message)];
    11 eq::ParseComplete SMALL_BACKEND, _ => [], [] => eq::ParseComplete::new();
    12 eq::BindComplete SMALL_BACKEND, _ => [], [] => eq::BindComplete::new();
    13 eq::CloseComplete SMALL_BACKEND, _ => [], [] => eq::CloseComplete::new();
    14 eq::PortalSuspended SMALL_BACKEND, _ => [], [] => eq::PortalSuspended::new();
    15 data::NoData SMALL_BACKEND, _ => [], [] => data::NoData::new();
    16 response::EmptyQueryResponse SMALL_BACKEND, _ => [], [] => response::EmptyQueryResponse::new();
    17 data::RowDescription LONG_BACKEND, m => [row_fields(&m)], [fields] => data::RowDescription::new(row_descriptions(fields)?);
    18 data::ParameterDescription LONG_BACKEND, m => [Field::Oids(m.types)], [types] => data::ParameterDescription::new(oids(types));
    // the Rust's form: the joined bytes, and the count beside them
    19 data::DataRow LONG_BACKEND, m => [Field::Unread(m.field_count.into(), m.data.to_vec())],
        [values] => data::DataRow::new(joined_values(values), width(values));
    20 response::CommandComplete SMALL_BACKEND, m => [text(&m.tag)], [tag] => response::CommandComplete::new(utf8(tag)?);
    21 response::ReadyForQuery SMALL_BACKEND, m => [num(m.status as u8)],
        [status] => response::ReadyForQuery::new(TransactionStatus::try_from(int(status) as u8).ok()?);
    22 response::ErrorResponse LONG_BACKEND, m => [errors(&m.fields)], [fields] => response::ErrorResponse::new(error_fields(fields)?);
    23 response::NoticeResponse LONG_BACKEND, m => [errors(&m.fields)], [fields] => response::NoticeResponse::new(error_fields(fields)?);
    24 copy::CopyInResponse SMALL_BACKEND, m => [num(m.format), columns(m.columns, m.column_formats)],
        [format, codes] => copy::CopyInResponse::new(int(format) as i8, width(codes), formats(codes));
    25 copy::CopyOutResponse SMALL_BACKEND, m => [num(m.format), columns(m.columns, m.column_formats)],
        [format, codes] => copy::CopyOutResponse::new(int(format) as i8, width(codes), formats(codes));
    26 copy::CopyBothResponse SMALL_BACKEND, m => [num(m.format), columns(m.columns, m.column_formats)],
        [format, codes] => copy::CopyBothResponse::new(int(format) as i8, width(codes), formats(codes));
    27 response::NotificationResponse LONG_BACKEND, m => [num(m.pid), text(&m.channel), text(&m.payload)],
        [pid, channel, payload] => response::NotificationResponse::new(int(pid) as i32, utf8(channel)?, utf8(payload)?);
    29 response::SslResponse SMALL, m => [num((m == SslResponse::Refuse) as u8)],
        [refuses] => if int(refuses) == 0 { SslResponse::Accept } else { SslResponse::Refuse };
    30 response::GssEncResponse SMALL, m => [num((m == GssEncResponse::Refuse) as u8)],
        [refuses] => if int(refuses) == 0 { GssEncResponse::Accept } else { GssEncResponse::Refuse };
    36 startup::ParameterStatus SMALL_BACKEND, m => [text(&m.name), text(&m.value)],
        [name, value] => startup::ParameterStatus::new(utf8(name)?, utf8(value)?);
    37 startup::BackendKeyData SMALL_BACKEND, m => [num(m.pid), key(&m.secret_key)],
        [pid, key] => startup::BackendKeyData::new(int(pid) as i32, SecretKey::I32(int(key) as i32));
}

/// The requests for encryption: the Rust has them as answers to what is asked of a first packet. It looks at no length of theirs, so they have no limit.
const SSL_REQUEST: u8 = 32;
const GSS_ENC_REQUEST: u8 = 33;

/// What a client sends, as a content.
pub fn read_client(m: Front) -> Option<Content> {
    let kind = match m {
        Front::SslNegotiation(Asked::PostgresSsl(_)) => SSL_REQUEST,
        Front::SslNegotiation(Asked::PostgresGss(_)) => GSS_ENC_REQUEST,
        other => return read_front(other),
    };
    Some(Content { kind, fields: vec![] })
}

/// A content as what a client sends.
pub fn made_client(c: &Content) -> Option<Front> {
    Some(Front::SslNegotiation(match c.kind {
        SSL_REQUEST => Asked::PostgresSsl(SslRequest::new()),
        GSS_ENC_REQUEST => Asked::PostgresGss(GssEncRequest::new()),
        _ => return made_front(c),
    }))
}

/// The Rust's limit of a kind's length.
pub fn limit(number: u8) -> i64 {
    FRONT.iter().chain(BACK).find(|row| row.number == number).expect("a row of the kind").limit
}

/// The type bytes that the Rust knows in mode 0 or 1 and that have no row here, in the order of its source.
pub fn left_out(mode: u8) -> impl Iterator<Item = u8> {
    let (known, rows) = if mode == 0 { (FROM_FRONTEND, FRONT) } else { (FROM_BACKEND, BACK) };
    known.iter().copied().filter(|byte| !rows.iter().any(|row| (row.type_byte)() == Some(*byte)))
}
