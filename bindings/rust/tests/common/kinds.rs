//! What the tests know kind by kind: a new kind has a row here, its arm of `write` and, where it has a list, of `walked`.

use super::{formats, joined, oids, records, report, settings};
use tusweram::*;

/// A part of a body; a list has a count and its items.
#[derive(Clone, Copy)]
pub enum Part {
    Text,
    Rest,
    Bytes(usize),
    One(&'static [u8]),
    List(&'static [Part]),
    Value,
    Errors,
    Pairs,
}

use Part::*;

const FIELD: &[Part] = &[Text, Bytes(18)];
const REPORT: &[Part] = &[Errors];
const COPY: &[Part] = &[Bytes(1), List(&[Bytes(2)])];
const KEY: &[Part] = &[Bytes(4), Bytes(4)];

/// The kinds with a type byte: the mode, the byte and the body, by docs/FORMAT.md 4.
pub const KINDS: &[(Mode, u8, &[Part])] = &[
    (Mode::Frontend, b'P', &[Text, Text, List(&[Bytes(4)])]),
    (Mode::Frontend, b'B', &[Text, Text, List(&[Bytes(2)]), List(&[Value]), List(&[Bytes(2)])]),
    (Mode::Frontend, b'C', &[One(b"SP"), Text]),
    (Mode::Frontend, b'D', &[One(b"SP"), Text]),
    (Mode::Frontend, b'E', &[Text, Bytes(4)]),
    (Mode::Frontend, b'H', &[]),
    (Mode::Frontend, b'S', &[]),
    (Mode::Frontend, b'c', &[]),
    (Mode::Frontend, b'd', &[Rest]),
    (Mode::Frontend, b'f', &[Text]),
    (Mode::Frontend, b'Q', &[Text]),
    (Mode::Frontend, b'X', &[]),
    (Mode::Backend, b'c', &[]),
    (Mode::Backend, b'd', &[Rest]),
    (Mode::Backend, b'1', &[]),
    (Mode::Backend, b'2', &[]),
    (Mode::Backend, b'3', &[]),
    (Mode::Backend, b's', &[]),
    (Mode::Backend, b'n', &[]),
    (Mode::Backend, b'I', &[]),
    (Mode::Backend, b'T', &[List(FIELD)]),
    (Mode::Backend, b't', &[List(&[Bytes(4)])]),
    (Mode::Backend, b'D', &[List(&[Value])]),
    (Mode::Backend, b'C', &[Text]),
    (Mode::Backend, b'Z', &[One(b"ITE")]),
    (Mode::Backend, b'E', REPORT),
    (Mode::Backend, b'N', REPORT),
    (Mode::Backend, b'G', COPY),
    (Mode::Backend, b'H', COPY),
    (Mode::Backend, b'W', COPY),
    (Mode::Backend, b'A', &[Bytes(4), Text, Text]),
    (Mode::Backend, b'S', &[Text, Text]),
    (Mode::Backend, b'K', KEY),
];

/// The kinds that a code tells, behind the length: the mode, the code and the body.
pub const CODED: &[(Mode, u32, &[Part])] = &[
    (Mode::CancelRequest, 80877102, KEY),
    (Mode::FirstPacket, 196608, &[Pairs]),
    (Mode::FirstPacket, 80877103, &[]),
    (Mode::FirstPacket, 80877104, &[]),
    (Mode::FirstPacket, 80877102, KEY),
];

/// A message, written again from what was read.
pub fn write(message: &Message, out: &mut [u8]) -> Encoded {
    match *message {
        Message::Parse(m) => encode::parse(m.name, m.query, &oids(m.type_oids), out),
        Message::Bind(m) => {
            let (lengths, bytes) = joined(m.parameters);
            let given = formats(m.parameter_format_codes);
            let results = formats(m.result_column_format_codes);
            encode::bind(m.portal_name, m.statement_name, &given, &lengths, &bytes, &results, out)
        }
        Message::Close(m) => encode::close(m.target_type, m.name, out),
        Message::Describe(m) => encode::describe(m.target_type, m.name, out),
        Message::Execute(m) => encode::execute(m.name, m.max_rows, out),
        Message::Flush => encode::flush(out),
        Message::Sync => encode::sync(out),
        Message::CopyDone => encode::copy_done(out),
        Message::CopyData(m) => encode::copy_data(m.data, out),
        Message::CopyFail(m) => encode::copy_fail(m.message, out),
        Message::ParseComplete => encode::parse_complete(out),
        Message::BindComplete => encode::bind_complete(out),
        Message::CloseComplete => encode::close_complete(out),
        Message::PortalSuspended => encode::portal_suspended(out),
        Message::NoData => encode::no_data(out),
        Message::EmptyQueryResponse => encode::empty_query_response(out),
        Message::RowDescription(m) => {
            let (records, run) = records(m.fields);
            encode::row_description(&records, &run, out)
        }
        Message::ParameterDescription(m) => encode::parameter_description(&oids(m.types), out),
        Message::DataRow(m) => {
            let (lengths, bytes) = joined(m.data);
            encode::data_row(&lengths, &bytes, out)
        }
        Message::CommandComplete(m) => encode::command_complete(m.tag, out),
        Message::ReadyForQuery(m) => encode::ready_for_query(m.status, out),
        Message::ErrorResponse(m) => {
            let (codes, lengths, texts) = report(m.fields);
            encode::error_response(&codes, &lengths, &texts, out)
        }
        Message::NoticeResponse(m) => {
            let (codes, lengths, texts) = report(m.fields);
            encode::notice_response(&codes, &lengths, &texts, out)
        }
        Message::CopyInResponse(m) => encode::copy_in_response(m.format, &formats(m.column_formats), out),
        Message::CopyOutResponse(m) => encode::copy_out_response(m.format, &formats(m.column_formats), out),
        Message::CopyBothResponse(m) => encode::copy_both_response(m.format, &formats(m.column_formats), out),
        Message::NotificationResponse(m) => encode::notification_response(m.pid, m.channel, m.payload, out),
        Message::CancelRequest(m) => encode::cancel_request(m.pid, m.secret_key, out),
        Message::SslResponse(m) => encode::ssl_response(m, out),
        Message::GssEncResponse(m) => encode::gss_enc_response(m, out),
        Message::Startup(m) => {
            let (lengths, texts) = settings(m.parameters);
            encode::startup(&lengths, &texts, out)
        }
        Message::SslRequest => encode::ssl_request(out),
        Message::GssEncRequest => encode::gss_enc_request(out),
        Message::Query(m) => encode::query(m.query, out),
        Message::Terminate => encode::terminate(out),
        Message::ParameterStatus(m) => encode::parameter_status(m.name, m.value, out),
        Message::BackendKeyData(m) => encode::backend_key_data(m.pid, m.secret_key, out),
    }
}

/// The elements of a message's lists by their iterators, list by list.
pub fn walked<'a>(message: &Message<'a>) -> Vec<Vec<Element<'a>>> {
    let oids = |list: Oids<'a>| list.iter().map(Element::Oid).collect();
    let formats = |list: Formats<'a>| list.iter().map(Element::Format).collect();
    let values = |list: Values<'a>| list.iter().map(|v| v.map_or(Element::Null, Element::Value)).collect();
    let errors = |list: ErrorFields<'a>| list.iter().map(Element::ErrorField).collect();
    match *message {
        Message::Parse(m) => vec![oids(m.type_oids)],
        Message::Bind(m) => {
            vec![formats(m.parameter_format_codes), values(m.parameters), formats(m.result_column_format_codes)]
        }
        Message::RowDescription(m) => vec![m.fields.iter().map(Element::Field).collect()],
        Message::ParameterDescription(m) => vec![oids(m.types)],
        Message::DataRow(m) => vec![values(m.data)],
        Message::ErrorResponse(m) => vec![errors(m.fields)],
        Message::NoticeResponse(m) => vec![errors(m.fields)],
        Message::CopyInResponse(m) => vec![formats(m.column_formats)],
        Message::CopyOutResponse(m) => vec![formats(m.column_formats)],
        Message::CopyBothResponse(m) => vec![formats(m.column_formats)],
        Message::Startup(m) => vec![m.parameters.iter().map(|(name, value)| Element::Pair(name, value)).collect()],
        _ => vec![],
    }
}
