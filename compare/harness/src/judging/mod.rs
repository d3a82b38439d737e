//! Each case is judged here: the library by the model, to the last number, and the Rust by the entries of docs/DIFFERENCES.md.

mod differences;
mod encoding;
mod parts;
mod rows;

pub use differences::{judge, Case, Verdict};
pub use rows::Place;

use crate::fixed_list::FixedList;
use crate::model::{self, framing, kind_of, numbers, Answer, Part};
use crate::oracle::{self, Seen};
use crate::ours;
use differences::{ENCODE_ENTRIES, ENTRIES};
use std::collections::BTreeMap;

/// What was counted, and where each case goes.
#[derive(Default)]
pub struct Run {
    pub cases: u64,
    pub failures: u64,
    equal: u64,
    both_refuse: u64,
    /// The differences under each entry: how many, and the smallest with its mode.
    under: BTreeMap<&'static str, (u64, Vec<u8>, u8)>,
    not_called: u64,
    panics: u64,
    elements: u64,
    rows: u64,
    items: u64,
    encoded: u64,
    ours_encoded: u64,
    /// The calls that build a row, and the refused ones by their number.
    steps: u64,
    steps_refused: BTreeMap<u8, u64>,
    sources: BTreeMap<&'static str, u64>,
    /// Encoding: how many contents were equal, or under which entry.
    written: BTreeMap<&'static str, u64>,
    source: &'static str,
    /// Where the fixed list is made: every case is handed to it too.
    pub list: Option<FixedList>,
}

pub fn hex(b: &[u8]) -> String {
    let shown = &b[..b.len().min(64)];
    let mut s: Vec<String> = shown.iter().map(|x| format!("{x:02X}")).collect();
    if b.len() > 64 {
        s.push(format!(".. ({} bytes)", b.len()));
    }
    s.join(" ")
}

/// The Rust would take quadratic time over a long error whose fields are damaged.
fn quadratic(mode: u8, buf: &[u8]) -> bool {
    buf.len() > 4096
        && kind_of(mode, buf).is_some_and(|k| k.has(&[Part::Errors]))
        && matches!(model::decode_unlimited(mode, buf), Answer::Refused(n, _) if n != 8)
}

impl Run {
    pub fn listed_in(list: FixedList) -> Run {
        Run { list: Some(list), ..Run::default() }
    }

    /// Names where the next inputs come from.
    pub fn from(&mut self, source: &'static str) {
        self.source = source;
    }

    fn fail(&mut self, what: &str, mode: u8, buf: &[u8], detail: String) {
        self.failures += 1;
        if self.failures <= 20 {
            // of a long list the beginning is enough
            println!("FAILED: {what} ({}): mode {mode}: {}\n  {detail:.4000}", self.source, hex(buf));
        }
    }

    /// One case: ours against the model, to the last number; the Rust against ours, by the entries.
    pub fn decode(&mut self, mode: u8, buf: &[u8]) {
        self.cases += 1;
        *self.sources.entry(self.source).or_default() += 1;
        let expected = model::decode(mode, buf);
        let numbers = numbers::of(&expected);
        let got = ours::decode(mode, buf);
        if got != numbers {
            self.fail("not what the model says", mode, buf, format!("ours {got:?}\n  model {numbers:?}"));
        }
        let (seen, consumed) = match framing(mode) {
            Some(_) if !quadratic(mode, buf) => oracle::decode(mode, buf),
            _ => (Seen::NotCalled, 0),
        };
        let case = Case { mode, buf, seen: &seen, consumed };
        let verdict = judge(&case, &expected);
        self.count(&case, &expected, &verdict);
        self.elements_of(mode, buf, &expected);
        self.items_of(mode, buf, &expected);
        self.items_anywhere(mode, buf);
        if mode == 1 {
            self.row_of(buf, &expected);
        }
        if let Some(list) = &mut self.list {
            list.take(&case, &expected, &verdict, self.source);
        }
    }

    fn count(&mut self, case: &Case, expected: &Answer, verdict: &Verdict) {
        let Case { mode, buf, seen, consumed } = *case;
        self.not_called += (*seen == Seen::NotCalled) as u64;
        self.panics += (*seen == Seen::Panicked) as u64;
        match verdict {
            Verdict::Equal => self.equal += 1,
            Verdict::BothRefuse => self.both_refuse += 1,
            Verdict::Under(entry) => {
                assert!(ENTRIES.contains(entry));
                let (n, smallest, of) = self.under.entry(entry).or_insert((0, buf.to_vec(), mode));
                *n += 1;
                if buf.len() < smallest.len() {
                    *smallest = buf.to_vec();
                    *of = mode;
                }
            }
            Verdict::Unexplained(what) => {
                self.fail(what, mode, buf, format!("ours {expected:?}\n  the Rust {seen:?}, {consumed} consumed"))
            }
        }
    }

    /// Prints what was counted; whether nothing failed.
    pub fn end(&self, seed: u64) -> bool {
        println!("seed {seed}: {} cases", self.cases);
        for (s, n) in &self.sources {
            println!("  {n:>10}  {s}");
        }
        println!("elements: {} calls; items at a place: {}; rows in one pass: {}", self.elements, self.items, self.rows);
        println!(
            "encoding: {} contents; with what is no content {} by the library, each into four outputs",
            self.encoded, self.ours_encoded
        );
        for (e, n) in &self.written {
            println!("{n:>12}  {e}");
        }
        self.end_of_rows();
        println!("decoding:");
        println!("{:>12}  equal", self.equal);
        println!("{:>12}  both refuse, for the same reason", self.both_refuse);
        for e in ENTRIES {
            if let Some((n, smallest, mode)) = self.under.get(e) {
                println!("{n:>12}  under '{e}'; the smallest: mode {mode}: {}", hex(smallest));
            }
        }
        println!("{:>12}  unexplained, or another fault", self.failures);
        println!("the Rust panicked {} times, and was not called {} times", self.panics, self.not_called);
        self.failures == 0
    }
}
