//! What is written: by the model, the Rust and the library of contents, and by the library of what is no content.

use super::differences::judge_encoded;
use super::{hex, Run, Verdict, ENCODE_ENTRIES};
use crate::content::Content;
use crate::model::{self, Framing, Given, Kind, KINDS};
use crate::oracle;
use crate::ours::{self, Call};
use tusweram::ffi::{self, Lists, Plain};

impl Run {
    /// One content: what the model, the Rust and the library write of it.
    pub fn encode(&mut self, c: &Content) {
        self.encoded += 1;
        let g = model::given(c);
        let expected = model::encode(&g, usize::MAX);
        let seen = oracle::encode(c);
        let sort = match seen.as_ref().map(|s| judge_encoded(c, &expected, s)) {
            None => "cannot be given to the Rust",
            Some(Verdict::Equal | Verdict::BothRefuse) => "equal",
            Some(Verdict::Under(e)) => {
                assert!(ENCODE_ENTRIES.contains(&e));
                e
            }
            Some(Verdict::Unexplained(what)) => {
                let written = expected.as_ref().map(|f| hex(f));
                self.fail(what, 0, &[], format!("{c:?}\n  model {written:?}\n  the Rust {seen:?}"));
                return self.encode_ours(&g);
            }
        };
        *self.written.entry(sort).or_default() += 1;
        self.encode_ours(&g);
    }

    /// The library, with the output just long enough, one byte short, empty, and longer: every byte written, and the bytes after them.
    pub fn encode_ours(&mut self, g: &Given) {
        self.ours_encoded += 1;
        let full = model::encode(g, usize::MAX).map(|f| f.len()).unwrap_or(64);
        for room in [full, full.saturating_sub(1), 0, full + 9] {
            let expected = model::encode(g, room);
            let mut out: Vec<u8> = (0..room).map(|i| (i % 251) as u8 ^ 0x5a).collect();
            let before = out.clone();
            let answer = ours::encode(g, &mut out);
            let left = match &expected {
                Ok(f) => [&f[..], &before[f.len()..]].concat(),
                Err(_) => before,
            };
            let expected = expected.map(|f| f.len());
            if answer != expected || out != left {
                self.fail("written otherwise", 0, &out, format!("{g:?}\n  room {room}: ours {answer:?}, model {expected:?}"));
            }
        }
    }

    /// Kinds that no encoder has, and answers that are neither accept nor refuse: refusal 2, with nothing written.
    pub fn unknown_kinds(&mut self) {
        for number in (0..64).chain([usize::MAX]) {
            let kind = KINDS.iter().find(|k| k.number as usize == number);
            for byte in 0..=255 {
                let mut out = [9; 64];
                if !kind.is_some_and(|k| is_plain(k, byte))
                    && ffi::encode(number, Plain { byte, ..Plain::default() }, &mut out) != REFUSED_2
                {
                    self.fail("an unknown kind is written", 0, &out, format!("tusweram_encode of kind {number}, byte {byte}"));
                }
                let listed = kind.is_some_and(|k| ours::call(k) == Call::Lists);
                if !listed && ffi::encode_lists(number, Lists::default(), &mut out) != REFUSED_2 {
                    self.fail("an unknown kind is written", 0, &out, format!("tusweram_encode_lists of kind {number}"));
                }
                if out != [9; 64] {
                    self.fail("an unknown kind is written", 0, &out, format!("kind {number}"));
                }
            }
        }
    }
}

const REFUSED_2: usize = usize::MAX - 2;

/// Whether `tusweram_encode` knows the kind, and of an answer the byte.
fn is_plain(kind: &Kind, byte: u8) -> bool {
    ours::call(kind) == Call::Plain && (kind.framing() != Framing::Bare || byte < 2)
}
