//! Which entry of docs/DIFFERENCES.md a difference falls under. A difference under no entry fails the run.

use crate::content::{Content, Field};
use crate::model::{self, framing, kind_of, numbered, Answer, Framing, Kind, Part};
use crate::oracle::{self, Seen};

#[derive(Clone, PartialEq, Eq, Debug)]
pub enum Verdict {
    /// The same message with the same fields and bytes consumed; or both wait.
    Equal,
    /// Both refuse, for the same reason.
    BothRefuse,
    /// A difference with an entry.
    Under(&'static str),
    Unexplained(&'static str),
}
use Verdict::*;

/// The entries, in the order of docs/DIFFERENCES.md.
#[rustfmt::skip]
pub const ENTRIES: [&str; 24] = [
    "mode", "one-byte", "left-out", "copy-fail-from-backend", "answer-byte", "negative-length", "short-length", "limits",
    "count", "missing-zero", "past-the-frame", "cut", "bytes-left", "target", "value-length", "data-row", "error-fields", "cancel-key",
    "code-first", "minor-version", "request-length", "startup-pairs", "same-name", "text",
];

/// One input, and what the Rust answers of it.
#[derive(Clone, Copy)]
pub struct Case<'a> {
    pub mode: u8,
    pub buf: &'a [u8],
    pub seen: &'a Seen,
    pub consumed: usize,
}

impl Case<'_> {
    fn took(&self) -> bool {
        matches!(self.seen, Seen::Record(_))
    }

    fn took_up_to(&self, place: usize) -> bool {
        self.took() && self.consumed == place
    }

    fn waits(&self) -> bool {
        *self.seen == Seen::NeedMore
    }

    fn panicked(&self) -> bool {
        *self.seen == Seen::Panicked
    }

    fn refused(&self, error: &str) -> bool {
        refused(self.seen, error)
    }

    /// What the Rust may do with bytes that it reads past a check that it has not: take them, panic, or find a count too large.
    fn wild(&self) -> bool {
        self.took() || self.panicked() || self.refused("InvalidElementCount") || *self.seen == Seen::NotCalled
    }

    /// The kind of a frame that has its header.
    fn kind(&self) -> &'static Kind {
        kind_of(self.mode, self.buf).expect("a kind of the mode")
    }

    fn length_at(&self) -> usize {
        framing(self.mode).expect("a mode of frames").length_at()
    }

    fn length(&self) -> i64 {
        let at = self.length_at();
        i32::from_be_bytes(self.buf[at..at + 4].try_into().unwrap()) as i64
    }

    /// Where the frame ends by its length word.
    fn end(&self) -> usize {
        self.length() as usize + self.length_at()
    }

    /// Whether bytes stand behind the frame.
    fn followed(&self) -> bool {
        self.buf.len() > self.end()
    }
}

fn when(holds: bool, then: Verdict, what: &'static str) -> Verdict {
    match holds {
        true => then,
        false => Unexplained(what),
    }
}

fn refused(seen: &Seen, error: &str) -> bool {
    matches!(seen, Seen::Refused(e) if *e == error)
}

/// The Rust's answer beside ours, which is the model's.
pub fn judge(case: &Case, ours: &Answer) -> Verdict {
    if kind_of(case.mode, case.buf).is_some_and(Kind::is_request) {
        return request(case, ours);
    }
    match ours {
        Answer::Record(..) => taken(case, ours),
        Answer::NeedMore => when(case.waits() && case.consumed == 0, Equal, "need-more here alone"),
        Answer::Refused(1, _) => Under("mode"),
        Answer::Refused(2, _) => unknown(case),
        Answer::Refused(3, _) => too_short(case),
        Answer::Refused(4, _) => too_long(case),
        Answer::Refused(..) if case.kind().is_data_row() => when(unread(case), Under("data-row"), "a DataRow"),
        Answer::Refused(5, _) => count(case),
        Answer::Refused(6, place) => cut(case, *place),
        Answer::Refused(7, _) => not_allowed(case),
        Answer::Refused(8, place) => left_over(case, *place),
        Answer::Refused(..) => Unexplained("a refusal of no known number"),
    }
}

fn taken(case: &Case, ours: &Answer) -> Verdict {
    let Seen::Record(theirs) = case.seen else { return Unexplained("a well-formed frame that the Rust does not take") };
    if !matches!(ours, Answer::Record(_, n, _) if *n == case.consumed) {
        return Unexplained("other bytes consumed");
    }
    let ours = model::content(ours, case.buf).unwrap();
    if *theirs == ours.kept() {
        return Equal;
    }
    let lossy = ours.lossy().kept();
    if *theirs == lossy {
        return Under("text");
    }
    when(*theirs == lossy.last_of_each_name(), Under("same-name"), "other fields")
}

/// A request for encryption: the Rust takes its 8 bytes by the code alone, whatever its length says.
fn request(case: &Case, ours: &Answer) -> Verdict {
    let took_it = matches!(case.seen, Seen::Record(theirs) if theirs.kind == case.kind().number);
    match ours {
        Answer::Record(..) => taken(case, ours),
        _ => when(took_it && case.consumed == 8, Under("request-length"), "a request for encryption"),
    }
}

fn unknown(case: &Case) -> Verdict {
    match case.mode {
        2 => when(case.refused("InvalidCancelRequest"), BothRefuse, "an unknown code"),
        5 => unknown_word(case),
        3 | 4 => when(case.waits(), Under("answer-byte"), "an unknown answer byte"),
        _ if case.buf.len() == 1 => when(case.waits(), Under("one-byte"), "one byte of an unknown type"),
        1 if case.buf[0] == b'f' => Under("copy-fail-from-backend"),
        mode if oracle::left_out(mode).any(|byte| byte == case.buf[0]) => {
            when(!case.refused("InvalidMessageType"), Under("left-out"), "a type that the Rust is said to know")
        }
        _ => when(case.refused("InvalidMessageType"), BothRefuse, "an unknown type"),
    }
}

/// The Rust takes a packet with another code for a start-up: it tests the length first, awaits the whole, and then looks at the major version.
fn unknown_word(case: &Case) -> Verdict {
    if case.buf[4..6] == [0, 3] {
        return other_minor(case);
    }
    if case.refused("InvalidStartupMessage") {
        return BothRefuse;
    }
    when(case.waits() || case.refused("MessageTooLarge"), Under("code-first"), "an unknown code")
}

/// The Rust takes any minor version. As if it were 3.0, the two are to be alike, or to differ under another entry.
fn other_minor(case: &Case) -> Verdict {
    let mut buf = case.buf.to_vec();
    buf[6..8].fill(0);
    match judge(&Case { buf: &buf, ..*case }, &model::decode(case.mode, &buf)) {
        Unexplained(what) => Unexplained(what),
        BothRefuse => BothRefuse,
        _ => Under("minor-version"),
    }
}

fn too_short(case: &Case) -> Verdict {
    if case.length() < 0 {
        return when(case.refused("MessageTooLarge"), Under("negative-length"), "a negative length");
    }
    if case.buf.len() < case.end() {
        return when(case.waits(), Under("short-length"), "a short length, incomplete");
    }
    let key = case.kind().has_key();
    if framing(case.mode) == Some(Framing::Untyped) {
        let error = if key { "InvalidCancelRequest" } else { "InvalidStartupMessage" };
        return when(case.refused(error), BothRefuse, "a short first packet");
    }
    if key && case.refused("InvalidSecretKey") {
        return BothRefuse;
    }
    when(case.wild() || case.refused("InvalidTransactionStatus"), Under("short-length"), "a short length")
}

fn too_long(case: &Case) -> Verdict {
    if case.length() > oracle::limit(case.kind().number) {
        return when(case.refused("MessageTooLarge"), BothRefuse, "a length above both limits");
    }
    // As if there were no limit here, the two are to be alike, or to differ under another entry.
    match judge(case, &model::decode_unlimited(case.mode, case.buf)) {
        Unexplained(what) => Unexplained(what),
        _ => Under("limits"),
    }
}

/// A DataRow as the Rust keeps it: the frame's count and all bytes after it.
fn unread(case: &Case) -> bool {
    let count = i16::from_be_bytes([case.buf[5], case.buf[6]]);
    let fields = vec![Field::Unread(count.into(), case.buf[7..case.end()].to_vec())];
    *case.seen == Seen::Record(Content { kind: case.kind().number, fields }) && case.consumed == case.end()
}

/// Before it reads a list, the Rust tests whether the buffer has the elements' bytes: not of oids, and of Bind's lists the last alone.
fn count(case: &Case) -> Verdict {
    let body = case.kind().body;
    let (field, _) = model::fault(case.mode, case.buf);
    let tested = body[field] != Part::Oids && field + 1 == body.len();
    if tested && case.refused("InvalidElementCount") {
        return BothRefuse;
    }
    match case.followed() {
        true => when(case.wild(), Under("past-the-frame"), "a count past the frame"),
        false => when(case.panicked() && !tested, Under("count"), "a count"),
    }
}

fn cut(case: &Case, place: usize) -> Verdict {
    if case.kind().has(&[Part::Errors]) {
        return match case.followed() {
            true => when(case.wild(), Under("past-the-frame"), "an error's fields past the frame"),
            false => {
                let fell = case.panicked() || *case.seen == Seen::NotCalled;
                when(fell, Under("error-fields"), "an error's fields with no zero byte")
            }
        };
    }
    if case.kind().has(&[Part::Pairs]) {
        return match case.buf[place..].contains(&0) {
            true => when(case.took(), Under("past-the-frame"), "a start-up's pairs past the frame"),
            false => when(took_pairs_up_to(case, place), Under("startup-pairs"), "a start-up's pairs with no end"),
        };
    }
    match model::fault(case.mode, case.buf).1 {
        "string" if case.buf[place..].contains(&0) => when(case.wild(), Under("past-the-frame"), "a string past the frame"),
        "string" => when(case.wild(), Under("missing-zero"), "a string with no zero byte"),
        _ if case.followed() => when(case.wild(), Under("past-the-frame"), "a number or value past the frame"),
        _ => when(case.panicked(), Under("cut"), "a number or value that is cut"),
    }
}

/// Whether the Rust took a start-up as if its pairs ended at a place: those before it, and a name that stands alone with an empty value.
fn took_pairs_up_to(case: &Case, place: usize) -> bool {
    let ended = |end: &[u8]| {
        let mut packet = [&case.buf[..place], end].concat();
        let length = packet.len() as u32;
        packet[..4].copy_from_slice(&length.to_be_bytes());
        let pairs = model::content(&model::decode_unlimited(case.mode, &packet), &packet);
        pairs.is_some_and(|c| *case.seen == Seen::Record(c.lossy().kept().last_of_each_name()))
    };
    case.consumed == place && (ended(&[0]) || ended(&[0, 0]))
}

fn not_allowed(case: &Case) -> Verdict {
    if case.kind().has(&[Part::Target]) {
        return when(case.took(), Under("target"), "a target byte");
    }
    if case.kind().has(&[Part::Status]) {
        return when(case.refused("InvalidTransactionStatus"), BothRefuse, "a status byte");
    }
    when(case.wild(), Under("value-length"), "a value's length below -1")
}

fn left_over(case: &Case, place: usize) -> Verdict {
    if case.kind().has_key() {
        return when(case.took_up_to(place) || case.refused("InvalidSecretKey"), Under("cancel-key"), "a longer key");
    }
    when(case.took_up_to(place), Under("bytes-left"), "bytes left over")
}

// ---- encoding

/// The entries of encoding.
#[rustfmt::skip]
pub const ENCODE_ENTRIES: [&str; 7] = [
    "encode-limits", "encode-zero-in-text", "encode-target", "encode-zero-code", "encode-count", "encode-empty-name", "encode-pair-order",
];

/// What the model and the Rust write of one content.
pub fn judge_encoded(c: &Content, model: &Result<Vec<u8>, u8>, seen: &Result<Vec<u8>, Seen>) -> Verdict {
    match model {
        Ok(frame) if seen.as_ref() == Ok(frame) => Equal,
        // the same pairs in the order of their names
        Ok(_) if numbered(c.kind).has(&[Part::Pairs]) => {
            let sorted = model::encode(&model::given(&c.kept()), usize::MAX).ok();
            when(seen.as_ref().ok() == sorted.as_ref(), Under("encode-pair-order"), "other pairs written")
        }
        Ok(_) => Unexplained("other bytes written"),
        Err(4) => match seen {
            Err(e) => when(refused(e, "MessageTooLarge"), BothRefuse, "an encoder's refusal"),
            Ok(_) => Under("encode-limits"),
        },
        Err(10) => {
            let wrote = seen.is_ok() || matches!(seen, Err(e) if refused(e, "MessageTooLarge"));
            match unwritable(c) {
                Some("encode-count") if taken_back(c, seen) => Unexplained("a list that the Rust writes and reads"),
                Some(entry) => when(wrote, Under(entry), "a message that cannot be written"),
                None => Unexplained("a message that can be written"),
            }
        }
        Err(_) => Unexplained("an encoder's refusal of no known number"),
    }
}

/// Whether the Rust reads what it wrote as the same content.
fn taken_back(c: &Content, seen: &Result<Vec<u8>, Seen>) -> bool {
    seen.as_ref().is_ok_and(|f| oracle::decode(numbered(c.kind).mode, f).0 == Seen::Record(c.kept()))
}

/// Why a content cannot be written: the cases of refusal 10 (docs/FORMAT.md 9) that a content can have.
fn unwritable(c: &Content) -> Option<&'static str> {
    let kind = numbered(c.kind);
    let of = |f: &Field| match f {
        Field::Text(t) if t.contains(&0) => Some("encode-zero-in-text"),
        Field::RowFields(fields) if fields.iter().any(|f| f.name.contains(&0)) => Some("encode-zero-in-text"),
        Field::Errors(es) if es.iter().any(|(_, t)| t.contains(&0)) => Some("encode-zero-in-text"),
        Field::Errors(es) if es.iter().any(|(code, _)| *code == 0) => Some("encode-zero-code"),
        Field::Pairs(ps) if ps.iter().any(|(name, value)| name.contains(&0) || value.contains(&0)) => Some("encode-zero-in-text"),
        Field::Pairs(_) => Some("encode-empty-name"),
        list if list.counted() > kind.counts.most() => Some("encode-count"),
        _ => None,
    };
    let target = kind.has(&[Part::Target]).then_some("encode-target");
    c.fields.iter().find_map(of).or(target)
}
