//! The modes and the table of kinds: FORMAT 2 and 4.

/// The parts of a body, in the words of the document's tables.
#[derive(Clone, Copy, PartialEq, Eq, Debug)]
pub enum Part {
    Str,
    I8,
    I32,
    Target,
    Status,
    Oids,
    Formats,
    Values,
    RowFields,
    Errors,
    Pairs,
    Rest,
}
use Part::*;

impl Part {
    /// The bytes that an element has at least, of a list with a count.
    pub fn smallest_element(self) -> Option<usize> {
        match self {
            Formats => Some(2),
            Oids | Values => Some(4),
            RowFields => Some(19),
            _ => None,
        }
    }
}

/// The bytes that a target and a status can be, and the answer byte that refuses.
pub const TARGETS: &[u8] = b"SP";
pub const STATUSES: &[u8] = b"ITE";
pub const REFUSES: u8 = b'N';

/// How the two bytes of a list's count are read.
#[derive(Clone, Copy, PartialEq, Eq, Debug)]
pub enum Count {
    Signed,
    Unsigned,
}

impl Count {
    /// As many elements as it can say.
    pub fn most(self) -> usize {
        match self {
            Count::Signed => 32_767,
            Count::Unsigned => 65_535,
        }
    }
}

/// The two limits of a length.
const L: i64 = 1_048_576;
const S: i64 = 8_192;

/// How a mode's frames are framed.
#[derive(Clone, Copy, PartialEq, Eq, Debug)]
pub enum Framing {
    /// Type byte, length, body.
    Typed,
    /// Length, code, body.
    Untyped,
    /// One byte.
    Bare,
}

pub fn framing(mode: u8) -> Option<Framing> {
    match mode {
        0 | 1 => Some(Framing::Typed),
        2 | 5 => Some(Framing::Untyped),
        3 | 4 => Some(Framing::Bare),
        _ => None,
    }
}

impl Framing {
    /// Where the length word stands, which counts the bytes from itself on. A bare frame has none: its length is its byte.
    pub fn length_at(self) -> usize {
        match self {
            Framing::Typed => 1,
            Framing::Untyped | Framing::Bare => 0,
        }
    }

    /// Where what tells the kind stands: a type byte, a code or the one byte.
    pub fn tag_at(self) -> usize {
        match self {
            Framing::Untyped => 4,
            Framing::Typed | Framing::Bare => 0,
        }
    }

    /// Where it ends.
    pub fn tag_end(self) -> usize {
        match self {
            Framing::Untyped => 8,
            Framing::Typed | Framing::Bare => 1,
        }
    }

    pub fn body_at(self) -> usize {
        match self {
            Framing::Typed => 5,
            Framing::Untyped => 8,
            Framing::Bare => 1,
        }
    }
}

#[derive(PartialEq, Eq, Debug)]
pub struct Kind {
    pub number: u8,
    pub name: &'static str,
    pub mode: u8,
    /// What tells the kind: a type byte, a code or the one byte.
    pub tag: u32,
    pub smallest: i64,
    pub limit: i64,
    pub body: &'static [Part],
    /// How the counts of its lists are read.
    pub counts: Count,
}

impl Kind {
    /// The same with unsigned counts.
    const fn unsigned_counts(self) -> Kind {
        Kind { counts: Count::Unsigned, ..self }
    }

    /// Whether its body has one of these parts.
    pub fn has(&self, parts: &[Part]) -> bool {
        self.body.iter().any(|part| parts.contains(part))
    }

    /// The one kind that is values and nothing else.
    pub fn is_data_row(&self) -> bool {
        self.body == [Values]
    }

    /// A process and its key: CancelRequest and BackendKeyData.
    pub fn has_key(&self) -> bool {
        self.body == [I32, I32]
    }

    /// What is untyped and holds nothing: a request for encryption.
    pub fn is_request(&self) -> bool {
        self.framing() == Framing::Untyped && self.body.is_empty()
    }

    pub fn framing(&self) -> Framing {
        framing(self.mode).expect("a mode of the table")
    }

    /// What stands in a frame to tell the kind.
    pub fn tag_bytes(&self) -> Vec<u8> {
        let framing = self.framing();
        self.tag.to_be_bytes()[4 - (framing.tag_end() - framing.tag_at())..].to_vec()
    }
}

const fn kind(number: u8, name: &'static str, mode: u8, byte: u8, smallest: i64, limit: i64, body: &'static [Part]) -> Kind {
    coded(number, name, mode, byte as u32, smallest, limit, body)
}

const fn coded(number: u8, name: &'static str, mode: u8, tag: u32, smallest: i64, limit: i64, body: &'static [Part]) -> Kind {
    Kind { number, name, mode, tag, smallest, limit, body, counts: Count::Signed }
}

/// A line for each kind of each mode. The numbers are those at the library's boundary. Counts are signed where a line does not say otherwise.
pub static KINDS: [Kind; 42] = [
    kind(1, "Parse", 0, b'P', 8, L, &[Str, Str, Oids]).unsigned_counts(),
    kind(2, "Bind", 0, b'B', 12, L, &[Str, Str, Formats, Values, Formats]).unsigned_counts(),
    kind(3, "Close", 0, b'C', 6, S, &[Target, Str]),
    kind(4, "Describe", 0, b'D', 6, S, &[Target, Str]),
    kind(5, "Execute", 0, b'E', 9, S, &[Str, I32]),
    kind(6, "Flush", 0, b'H', 4, S, &[]),
    kind(7, "Sync", 0, b'S', 4, S, &[]),
    kind(8, "CopyDone", 0, b'c', 4, S, &[]),
    kind(9, "CopyData", 0, b'd', 4, L, &[Rest]),
    kind(10, "CopyFail", 0, b'f', 5, S, &[Str]),
    kind(11, "ParseComplete", 1, b'1', 4, S, &[]),
    kind(12, "BindComplete", 1, b'2', 4, S, &[]),
    kind(13, "CloseComplete", 1, b'3', 4, S, &[]),
    kind(14, "PortalSuspended", 1, b's', 4, S, &[]),
    kind(15, "NoData", 1, b'n', 4, S, &[]),
    kind(16, "EmptyQueryResponse", 1, b'I', 4, S, &[]),
    kind(8, "CopyDone", 1, b'c', 4, S, &[]),
    kind(17, "RowDescription", 1, b'T', 6, L, &[RowFields]),
    kind(18, "ParameterDescription", 1, b't', 6, L, &[Oids]).unsigned_counts(),
    kind(19, "DataRow", 1, b'D', 6, L, &[Values]),
    kind(20, "CommandComplete", 1, b'C', 5, S, &[Str]),
    kind(21, "ReadyForQuery", 1, b'Z', 5, S, &[Status]),
    kind(22, "ErrorResponse", 1, b'E', 5, L, &[Errors]),
    kind(23, "NoticeResponse", 1, b'N', 5, L, &[Errors]),
    kind(24, "CopyInResponse", 1, b'G', 7, S, &[I8, Formats]),
    kind(25, "CopyOutResponse", 1, b'H', 7, S, &[I8, Formats]),
    kind(26, "CopyBothResponse", 1, b'W', 7, S, &[I8, Formats]),
    kind(27, "NotificationResponse", 1, b'A', 10, L, &[I32, Str, Str]),
    kind(9, "CopyData", 1, b'd', 4, L, &[Rest]),
    coded(28, "CancelRequest", 2, 80_877_102, 16, S, &[I32, I32]),
    kind(29, "SslResponse", 3, b'S', 1, 1, &[]),
    kind(29, "SslResponse", 3, REFUSES, 1, 1, &[]),
    kind(30, "GssEncResponse", 4, b'G', 1, 1, &[]),
    kind(30, "GssEncResponse", 4, REFUSES, 1, 1, &[]),
    coded(31, "Startup", 5, 196_608, 9, S, &[Pairs]),
    coded(32, "SslRequest", 5, 80_877_103, 8, S, &[]),
    coded(33, "GssEncRequest", 5, 80_877_104, 8, S, &[]),
    coded(28, "CancelRequest", 5, 80_877_102, 16, S, &[I32, I32]),
    kind(34, "Query", 0, b'Q', 5, S, &[Str]),
    kind(35, "Terminate", 0, b'X', 4, S, &[]),
    kind(36, "ParameterStatus", 1, b'S', 6, S, &[Str, Str]),
    kind(37, "BackendKeyData", 1, b'K', 12, S, &[I32, I32]),
];

/// The kind of a frame, where what tells it is there.
pub fn kind_of(mode: u8, buf: &[u8]) -> Option<&'static Kind> {
    let framing = framing(mode)?;
    let tag = buf.get(framing.tag_at()..framing.tag_end())?.iter().fold(0, |tag, b| tag << 8 | *b as u32);
    KINDS.iter().find(|k| k.mode == mode && k.tag == tag)
}

/// The first line of a kind's number: of an answer the one that accepts, of what both sides send the frontend's.
pub fn numbered(number: u8) -> &'static Kind {
    KINDS.iter().find(|k| k.number == number).expect("a number of the table")
}

pub fn named(name: &str) -> &'static Kind {
    KINDS.iter().find(|k| k.name == name).expect("a name of the table")
}
