//! The parts of each frame that is taken: its elements by number, the items of its list one after another, and a row in one pass.

use super::Run;
use crate::model::{self, numbers, Answer, Count, Element, Part};
use crate::ours;

/// No longer buffers are read where no list may stand.
const SHORT: usize = 300;

/// The lists whose items have no fixed size: a call reads one at a place.
const WALKED: [Part; 4] = [Part::Values, Part::RowFields, Part::Errors, Part::Pairs];

impl Run {
    /// The elements of each list: all of a short one; of a long one the first, the last and some, at the end of a signed count too; and what is past
    /// the end.
    pub(super) fn elements_of(&mut self, mode: u8, buf: &[u8], answer: &Answer) {
        let counts: Vec<usize> = match answer {
            Answer::Record(k, _, slots) => model::lists(k, slots).iter().map(|(_, _, n)| *n).collect(),
            _ => vec![],
        };
        let signed = Count::Signed.most();
        for list in 0..=counts.len() {
            let n = counts.get(list).copied().unwrap_or(0);
            let numbers: Vec<usize> = if n <= 8 { (0..=n).collect() } else { vec![0, 1, n / 2, signed, signed + 1, n - 1, n, n + 1] };
            for number in numbers {
                self.elements += 1;
                let expected = numbers::of_element(&model::element(mode, buf, list, number));
                let got = ours::element(mode, buf, list, number);
                if got != expected {
                    self.fail("another element", mode, buf, format!("list {list} number {number}: ours {got:?}\n  model {expected:?}"));
                }
            }
        }
    }

    /// The items of a list one after another, each at the place that the one before it told.
    pub(super) fn items_of(&mut self, mode: u8, buf: &[u8], answer: &Answer) {
        let Answer::Record(k, consumed, slots) = answer else { return };
        for (part, start, count) in model::lists(k, slots) {
            // items of one size need no call
            if WALKED.contains(&part) {
                (0..count).fold(start, |at, _| self.item_at(mode, part, &buf[..*consumed], at));
            }
        }
    }

    /// Of every fourth case an item of every sort where no list may stand: at the buffer's start, where a body begins, and at the buffer's end.
    pub(super) fn items_anywhere(&mut self, mode: u8, buf: &[u8]) {
        if buf.len() > SHORT || self.cases % 4 != 0 {
            return;
        }
        for part in WALKED {
            for at in [0, 5, 8, buf.len()] {
                self.item_at(mode, part, buf, at);
            }
        }
    }

    /// The item at a place; the next place.
    fn item_at(&mut self, mode: u8, part: Part, frame: &[u8], at: usize) -> usize {
        self.items += 1;
        let item = model::item(part, frame, at);
        let (got, expected) = (ours::item(part, frame, at), numbers::of_item(&item));
        if got != expected {
            self.fail("another item", mode, frame, format!("{part:?} at {at}: ours {got:?}\n  model {expected:?}"));
        }
        item.1
    }

    /// A row in one pass, into slices that are long enough, one too short, and longer.
    pub(super) fn row_of(&mut self, buf: &[u8], answer: &Answer) {
        let (mut at, count) = match answer {
            Answer::Record(k, _, slots) if k.is_data_row() => {
                let (_, start, count) = model::lists(k, slots)[0];
                (start, count)
            }
            _ => (0, 0),
        };
        self.rows += 1;
        let mut entry = || {
            let (item, next) = model::item(Part::Values, buf, at);
            at = next;
            match item {
                Element::Value(start, len) => (start, len as i32),
                _ => (0, -1),
            }
        };
        let entries: Vec<(usize, i32)> = (0..count).map(|_| entry()).collect();
        let less = count.saturating_sub(1);
        for room in [(count, count), (less, count), (count, less), (count + 2, count + 3)] {
            self.row_into(buf, answer, &entries, room);
        }
    }

    fn row_into(&mut self, buf: &[u8], answer: &Answer, entries: &[(usize, i32)], room: (usize, usize)) {
        let (mut starts, mut lengths) = (vec![77; room.0], vec![-77; room.1]);
        let (mut starts2, mut lengths2) = (starts.clone(), lengths.clone());
        let got = ours::data_row(buf, &mut starts, &mut lengths);
        let expected = numbers::of_row(answer, room.0.min(room.1));
        if expected[0] == 0 {
            for (i, (start, length)) in entries.iter().enumerate() {
                (starts2[i], lengths2[i]) = (*start, *length);
            }
        }
        if got != expected || starts != starts2 || lengths != lengths2 {
            let theirs = format!("model {expected:?} {starts2:?} {lengths2:?}");
            self.fail("another row", 1, buf, format!("ours {got:?} {starts:?} {lengths:?}\n  {theirs}"));
        }
    }
}
