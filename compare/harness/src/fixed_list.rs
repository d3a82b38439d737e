//! The fixed list of crates/test_replay: a line for each case, "MODE HEX = NUMBERS | the Rust's answer".

use crate::content::Content;
use crate::inputs;
use crate::judging::{Case, Run, Verdict};
use crate::model::{framing, kind_of, numbers, Answer, Framing};
use crate::oracle::{self, Seen};
use std::collections::BTreeMap;

/// The lines so far, by the sort of their cases.
#[derive(Default)]
pub struct FixedList {
    lines: BTreeMap<String, Vec<String>>,
}

impl FixedList {
    /// A few cases of each sort are taken.
    pub fn take(&mut self, case: &Case, answer: &Answer, verdict: &Verdict, source: &str) {
        if case.buf.len() > 80 || case.mode > 9 || may_become_a_kind(case) || taken_by_the_rust_alone(case, answer) {
            return;
        }
        let most = if source.starts_with("every") { 1 } else { 5 };
        let lines = self.lines.entry(sort(case, answer, verdict, source)).or_default();
        if lines.len() >= most {
            return;
        }
        let line = line(case, answer);
        if !lines.contains(&line) {
            lines.push(line);
        }
    }
}

/// Of the types that are left out the first stands for all: when another becomes a kind, the list still holds.
fn may_become_a_kind(case: &Case) -> bool {
    framing(case.mode) == Some(Framing::Typed) && oracle::left_out(case.mode).skip(1).any(|byte| case.buf.first() == Some(&byte))
}

/// A request for encryption that the Rust takes before its end has come: a line says that neither refuses, and so that both wait.
fn taken_by_the_rust_alone(case: &Case, answer: &Answer) -> bool {
    *answer == Answer::NeedMore && *case.seen != Seen::NeedMore
}

/// What makes two cases alike: source, mode, kind, our answer and the verdict.
fn sort(case: &Case, answer: &Answer, verdict: &Verdict, source: &str) -> String {
    let mode = case.mode;
    match answer {
        Answer::Refused(1, _) => "mode".to_string(),
        Answer::Refused(2, _) => format!("{source} {mode} {verdict:?}"),
        Answer::Record(k, _, _) => format!("{source} {mode} {} {verdict:?}", k.name),
        Answer::NeedMore => format!("{source} {mode} wait"),
        Answer::Refused(n, _) => {
            let kind = kind_of(mode, case.buf).expect("a kind that was told");
            format!("{source} {mode} {} {n} {verdict:?}", kind.name)
        }
    }
}

fn line(case: &Case, answer: &Answer) -> String {
    let mut line = format!("{}", case.mode);
    for b in case.buf {
        line.push_str(&format!(" {b:02X}"));
    }
    line.push_str(" =");
    let numbers = numbers::of(answer);
    let last = numbers.iter().rposition(|n| *n != 0).map_or(0, |i| i + 1);
    for n in &numbers[..last] {
        line.push_str(&format!(" {n}"));
    }
    line + &rust_answer(case, answer)
}

/// The Rust's answer in numbers, where the model does not refuse: what it gives for a frame that is refused is a matter of docs/DIFFERENCES.md.
fn rust_answer(case: &Case, answer: &Answer) -> String {
    match (answer, case.seen) {
        (Answer::Refused(..), _) => String::new(),
        (_, Seen::Record(Content { kind, .. })) => format!(" | 0 {} {kind}", case.consumed),
        (_, Seen::NeedMore) => " | 1".into(),
        _ => unreachable!("the comparison fails where the Rust neither takes nor awaits what the model does"),
    }
}

/// Makes the list, on standard output.
pub fn print(seed: u64, folder: &str) {
    let mut run = Run::listed_in(FixedList::default());
    inputs::for_the_list(&mut run, seed, folder);
    assert!(run.failures == 0, "the comparison failed: no list is made");
    for line in run.list.unwrap().lines.values().flatten() {
        println!("{line}");
    }
}
