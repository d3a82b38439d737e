//! The messages, under the names of the Rust crate pgwire. A text, value or rest is a part of the caller's buffer, as raw bytes; an empty
//! text stands for pgwire's `None`.

use crate::ffi::Row;
use crate::lists::{ErrorFields, Fields, Formats, Oids, Pairs, Values};
use crate::numbers::{part, word};

/// The target of Close and Describe: a prepared statement.
pub const TARGET_TYPE_BYTE_STATEMENT: u8 = b'S';
/// The target of Close and Describe: a portal.
pub const TARGET_TYPE_BYTE_PORTAL: u8 = b'P';

/// The status of ReadyForQuery: in no transaction.
pub const READY_STATUS_IDLE: u8 = b'I';
/// The status of ReadyForQuery: in a transaction.
pub const READY_STATUS_TRANSACTION_BLOCK: u8 = b'T';
/// The status of ReadyForQuery: in a failed transaction.
pub const READY_STATUS_FAILED_TRANSACTION_BLOCK: u8 = b'E';

// The kinds' numbers at the boundary, as crates/protocol/src/kinds.rt has them; .ci/kinds compares.
pub(crate) mod kind {
    pub const PARSE: usize = 1;
    pub const BIND: usize = 2;
    pub const CLOSE: usize = 3;
    pub const DESCRIBE: usize = 4;
    pub const EXECUTE: usize = 5;
    pub const FLUSH: usize = 6;
    pub const SYNC: usize = 7;
    pub const COPY_DONE: usize = 8;
    pub const COPY_DATA: usize = 9;
    pub const COPY_FAIL: usize = 10;
    pub const PARSE_COMPLETE: usize = 11;
    pub const BIND_COMPLETE: usize = 12;
    pub const CLOSE_COMPLETE: usize = 13;
    pub const PORTAL_SUSPENDED: usize = 14;
    pub const NO_DATA: usize = 15;
    pub const EMPTY_QUERY_RESPONSE: usize = 16;
    pub const ROW_DESCRIPTION: usize = 17;
    pub const PARAMETER_DESCRIPTION: usize = 18;
    pub const DATA_ROW: usize = 19;
    pub const COMMAND_COMPLETE: usize = 20;
    pub const READY_FOR_QUERY: usize = 21;
    pub const ERROR_RESPONSE: usize = 22;
    pub const NOTICE_RESPONSE: usize = 23;
    pub const COPY_IN_RESPONSE: usize = 24;
    pub const COPY_OUT_RESPONSE: usize = 25;
    pub const COPY_BOTH_RESPONSE: usize = 26;
    pub const NOTIFICATION_RESPONSE: usize = 27;
    pub const CANCEL_REQUEST: usize = 28;
    pub const SSL_RESPONSE: usize = 29;
    pub const GSS_ENC_RESPONSE: usize = 30;
    pub const STARTUP: usize = 31;
    pub const SSL_REQUEST: usize = 32;
    pub const GSS_ENC_REQUEST: usize = 33;
    pub const QUERY: usize = 34;
    pub const TERMINATE: usize = 35;
    pub const PARAMETER_STATUS: usize = 36;
    pub const BACKEND_KEY_DATA: usize = 37;
}

/// A message that borrows from the buffer it was read from.
#[derive(Clone, Copy, Debug, PartialEq, Eq)]
pub enum Message<'a> {
    Parse(Parse<'a>),
    Bind(Bind<'a>),
    Close(Close<'a>),
    Describe(Describe<'a>),
    Execute(Execute<'a>),
    Flush,
    Sync,
    CopyDone,
    CopyData(CopyData<'a>),
    CopyFail(CopyFail<'a>),
    ParseComplete,
    BindComplete,
    CloseComplete,
    PortalSuspended,
    NoData,
    EmptyQueryResponse,
    RowDescription(RowDescription<'a>),
    ParameterDescription(ParameterDescription<'a>),
    DataRow(DataRow<'a>),
    CommandComplete(CommandComplete<'a>),
    ReadyForQuery(ReadyForQuery),
    ErrorResponse(ErrorResponse<'a>),
    NoticeResponse(NoticeResponse<'a>),
    CopyInResponse(CopyInResponse<'a>),
    CopyOutResponse(CopyOutResponse<'a>),
    CopyBothResponse(CopyBothResponse<'a>),
    NotificationResponse(NotificationResponse<'a>),
    CancelRequest(CancelRequest),
    SslResponse(SslResponse),
    GssEncResponse(GssEncResponse),
    Startup(Startup<'a>),
    SslRequest,
    GssEncRequest,
    Query(Query<'a>),
    Terminate,
    ParameterStatus(ParameterStatus<'a>),
    BackendKeyData(BackendKeyData),
}

/// A query to be prepared under a name, with the types of its parameters.
#[derive(Clone, Copy, Debug, PartialEq, Eq)]
pub struct Parse<'a> {
    pub name: &'a [u8],
    pub query: &'a [u8],
    pub type_oids: Oids<'a>,
}

/// Values for a prepared statement, which make a portal.
#[derive(Clone, Copy, Debug, PartialEq, Eq)]
pub struct Bind<'a> {
    pub portal_name: &'a [u8],
    pub statement_name: &'a [u8],
    pub parameter_format_codes: Formats<'a>,
    pub parameters: Values<'a>,
    pub result_column_format_codes: Formats<'a>,
}

/// Closes a prepared statement or a portal.
#[derive(Clone, Copy, Debug, PartialEq, Eq)]
pub struct Close<'a> {
    pub target_type: u8,
    pub name: &'a [u8],
}

/// Asks for the description of a prepared statement or a portal.
#[derive(Clone, Copy, Debug, PartialEq, Eq)]
pub struct Describe<'a> {
    pub target_type: u8,
    pub name: &'a [u8],
}

/// Runs a portal; `max_rows` of 0 is all rows.
#[derive(Clone, Copy, Debug, PartialEq, Eq)]
pub struct Execute<'a> {
    pub name: &'a [u8],
    pub max_rows: i32,
}

/// A piece of a copy, from either side.
#[derive(Clone, Copy, Debug, PartialEq, Eq)]
pub struct CopyData<'a> {
    pub data: &'a [u8],
}

/// Ends a copy from the client with an error.
#[derive(Clone, Copy, Debug, PartialEq, Eq)]
pub struct CopyFail<'a> {
    pub message: &'a [u8],
}

/// The columns of the rows that follow.
#[derive(Clone, Copy, Debug, PartialEq, Eq)]
pub struct RowDescription<'a> {
    pub fields: Fields<'a>,
}

/// The types of a prepared statement's parameters.
#[derive(Clone, Copy, Debug, PartialEq, Eq)]
pub struct ParameterDescription<'a> {
    pub types: Oids<'a>,
}

/// One row.
#[derive(Clone, Copy, Debug, PartialEq, Eq)]
pub struct DataRow<'a> {
    pub data: Values<'a>,
}

/// A command has ended; the tag names it, as `SELECT 1`.
#[derive(Clone, Copy, Debug, PartialEq, Eq)]
pub struct CommandComplete<'a> {
    pub tag: &'a [u8],
}

/// The server waits for the next query.
#[derive(Clone, Copy, Debug, PartialEq, Eq)]
pub struct ReadyForQuery {
    pub status: u8,
}

/// An error.
#[derive(Clone, Copy, Debug, PartialEq, Eq)]
pub struct ErrorResponse<'a> {
    pub fields: ErrorFields<'a>,
}

/// A notice.
#[derive(Clone, Copy, Debug, PartialEq, Eq)]
pub struct NoticeResponse<'a> {
    pub fields: ErrorFields<'a>,
}

/// The server takes a copy from the client.
#[derive(Clone, Copy, Debug, PartialEq, Eq)]
pub struct CopyInResponse<'a> {
    pub format: i8,
    pub column_formats: Formats<'a>,
}

/// The server sends a copy to the client.
#[derive(Clone, Copy, Debug, PartialEq, Eq)]
pub struct CopyOutResponse<'a> {
    pub format: i8,
    pub column_formats: Formats<'a>,
}

/// Both sides send copies, as in replication.
#[derive(Clone, Copy, Debug, PartialEq, Eq)]
pub struct CopyBothResponse<'a> {
    pub format: i8,
    pub column_formats: Formats<'a>,
}

/// A notification, with the server process that sent it.
#[derive(Clone, Copy, Debug, PartialEq, Eq)]
pub struct NotificationResponse<'a> {
    pub pid: i32,
    pub channel: &'a [u8],
    pub payload: &'a [u8],
}

/// A request to cancel what another connection runs.
#[derive(Clone, Copy, Debug, PartialEq, Eq)]
pub struct CancelRequest {
    pub pid: i32,
    pub secret_key: i32,
}

/// The answer to a request for TLS.
#[derive(Clone, Copy, Debug, PartialEq, Eq)]
pub enum SslResponse {
    Accept,
    Refuse,
}

/// The answer to a request for GSS encryption.
#[derive(Clone, Copy, Debug, PartialEq, Eq)]
pub enum GssEncResponse {
    Accept,
    Refuse,
}

/// Begins a session under protocol 3.0, with the names and values of its settings, as `user` and `database`.
#[derive(Clone, Copy, Debug, PartialEq, Eq)]
pub struct Startup<'a> {
    pub parameters: Pairs<'a>,
}

/// A query to be run at once.
#[derive(Clone, Copy, Debug, PartialEq, Eq)]
pub struct Query<'a> {
    pub query: &'a [u8],
}

/// A setting of the server, and its value now.
#[derive(Clone, Copy, Debug, PartialEq, Eq)]
pub struct ParameterStatus<'a> {
    pub name: &'a [u8],
    pub value: &'a [u8],
}

/// What a request to cancel this connection's query must name.
#[derive(Clone, Copy, Debug, PartialEq, Eq)]
pub struct BackendKeyData {
    pub pid: i32,
    pub secret_key: i32,
}

impl SslResponse {
    fn new(number: usize) -> Self {
        if number == SslResponse::Accept as usize {
            SslResponse::Accept
        } else {
            SslResponse::Refuse
        }
    }
}

impl GssEncResponse {
    fn new(number: usize) -> Self {
        if number == GssEncResponse::Accept as usize {
            GssEncResponse::Accept
        } else {
            GssEncResponse::Refuse
        }
    }
}

impl<'a> Message<'a> {
    /// The message of an answer of tusweram_decode, whose fields stand in its frame; none where its kind is not known here.
    pub(crate) fn new(frame: &'a [u8], row: &Row) -> Option<Self> {
        let [_, _, _, _, number, a, b, c, d, e, f, g, h, i, j, _] = *row;
        let message = match number {
            kind::PARSE => Message::Parse(Parse { name: part(frame, a, b), query: part(frame, c, d), type_oids: Oids::new(frame, e, f) }),
            kind::BIND => Message::Bind(Bind {
                portal_name: part(frame, a, b),
                statement_name: part(frame, c, d),
                parameter_format_codes: Formats::new(frame, e, f),
                parameters: Values::new(frame, g, h),
                result_column_format_codes: Formats::new(frame, i, j),
            }),
            kind::CLOSE => Message::Close(Close { target_type: a as u8, name: part(frame, b, c) }),
            kind::DESCRIBE => Message::Describe(Describe { target_type: a as u8, name: part(frame, b, c) }),
            kind::EXECUTE => Message::Execute(Execute { name: part(frame, a, b), max_rows: word(c) }),
            kind::FLUSH => Message::Flush,
            kind::SYNC => Message::Sync,
            kind::COPY_DONE => Message::CopyDone,
            kind::COPY_DATA => Message::CopyData(CopyData { data: part(frame, a, b) }),
            kind::COPY_FAIL => Message::CopyFail(CopyFail { message: part(frame, a, b) }),
            kind::PARSE_COMPLETE => Message::ParseComplete,
            kind::BIND_COMPLETE => Message::BindComplete,
            kind::CLOSE_COMPLETE => Message::CloseComplete,
            kind::PORTAL_SUSPENDED => Message::PortalSuspended,
            kind::NO_DATA => Message::NoData,
            kind::EMPTY_QUERY_RESPONSE => Message::EmptyQueryResponse,
            kind::ROW_DESCRIPTION => Message::RowDescription(RowDescription { fields: Fields::new(frame, a, b) }),
            kind::PARAMETER_DESCRIPTION => Message::ParameterDescription(ParameterDescription { types: Oids::new(frame, a, b) }),
            kind::DATA_ROW => Message::DataRow(DataRow { data: Values::new(frame, a, b) }),
            kind::COMMAND_COMPLETE => Message::CommandComplete(CommandComplete { tag: part(frame, a, b) }),
            kind::READY_FOR_QUERY => Message::ReadyForQuery(ReadyForQuery { status: a as u8 }),
            kind::ERROR_RESPONSE => Message::ErrorResponse(ErrorResponse { fields: ErrorFields::new(frame, a, b) }),
            kind::NOTICE_RESPONSE => Message::NoticeResponse(NoticeResponse { fields: ErrorFields::new(frame, a, b) }),
            kind::COPY_IN_RESPONSE => {
                Message::CopyInResponse(CopyInResponse { format: word(a) as i8, column_formats: Formats::new(frame, b, c) })
            }
            kind::COPY_OUT_RESPONSE => {
                Message::CopyOutResponse(CopyOutResponse { format: word(a) as i8, column_formats: Formats::new(frame, b, c) })
            }
            kind::COPY_BOTH_RESPONSE => {
                Message::CopyBothResponse(CopyBothResponse { format: word(a) as i8, column_formats: Formats::new(frame, b, c) })
            }
            kind::NOTIFICATION_RESPONSE => {
                Message::NotificationResponse(NotificationResponse { pid: word(a), channel: part(frame, b, c), payload: part(frame, d, e) })
            }
            kind::CANCEL_REQUEST => Message::CancelRequest(CancelRequest { pid: word(a), secret_key: word(b) }),
            kind::SSL_RESPONSE => Message::SslResponse(SslResponse::new(a)),
            kind::GSS_ENC_RESPONSE => Message::GssEncResponse(GssEncResponse::new(a)),
            kind::STARTUP => Message::Startup(Startup { parameters: Pairs::new(frame, a, b) }),
            kind::SSL_REQUEST => Message::SslRequest,
            kind::GSS_ENC_REQUEST => Message::GssEncRequest,
            kind::QUERY => Message::Query(Query { query: part(frame, a, b) }),
            kind::TERMINATE => Message::Terminate,
            kind::PARAMETER_STATUS => Message::ParameterStatus(ParameterStatus { name: part(frame, a, b), value: part(frame, c, d) }),
            kind::BACKEND_KEY_DATA => Message::BackendKeyData(BackendKeyData { pid: word(a), secret_key: word(b) }),
            _ => return None,
        };
        Some(message)
    }
}
