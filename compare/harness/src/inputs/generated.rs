//! Frames that are made: every short one, random ones of every kind, sizes around the limits, and long lists.

use super::contents::{content, frame, misgiven, spoiled, stretched, with_list_of};
use super::damaged::{around, mended, replaced, with_length};
use super::Rng;
use crate::content::{joined, Content, Field};
use crate::judging::Run;
use crate::model::{numbered, Count, Framing, Kind, KINDS};
use crate::oracle;

/// The bytes that short frames are made of, the most telling first.
pub const ALPHABET: [u8; 6] = [0, 6, 255, 5, 1, b'S'];

/// As many of them as make fewer than half of the cases.
pub fn alphabet(count: u64) -> &'static [u8] {
    let typed = KINDS.iter().filter(|k| k.framing() == Framing::Typed).count() as u64;
    let letters = (3..=6).rev().find(|n| typed * (*n as u64).pow(7) * 6 / 5 < count / 2).unwrap_or(3);
    &ALPHABET[..letters]
}

/// Every row of `n` bytes of the alphabet.
fn words(alphabet: &[u8], n: u32) -> impl Iterator<Item = Vec<u8>> + '_ {
    let letters = alphabet.len() as u64;
    (0..letters.pow(n)).map(move |i| (0..n).map(|place| alphabet[(i / letters.pow(place) % letters) as usize]).collect())
}

/// Every frame of up to 8 bytes whose first is a type byte of the mode and whose others are of the alphabet.
pub fn exhaustive(run: &mut Run, alphabet: &[u8]) {
    run.from("every frame of up to 8 bytes over a small alphabet");
    for k in KINDS.iter().filter(|k| k.framing() == Framing::Typed) {
        for rest in (0..=7).flat_map(|n| words(alphabet, n)) {
            run.decode(k.mode, &[&k.tag_bytes()[..], &rest].concat());
        }
    }
}

/// Every first packet of up to 13 bytes: a length around its bytes, a code of mode 5 or one that is none, and a body of the alphabet.
pub fn first_packets(run: &mut Run, alphabet: &[u8]) {
    run.from("every first packet of up to 13 bytes over a small alphabet");
    let none = [0, 196_610];
    let codes: Vec<u32> = KINDS.iter().filter(|k| k.mode == 5).map(|k| k.tag).chain(none).collect();
    for body in (0..=5).flat_map(|n| words(alphabet, n)) {
        for length in 7..=body.len() as u32 + 9 {
            for code in &codes {
                let packet = [&length.to_be_bytes()[..], &code.to_be_bytes(), &body].concat();
                run.decode(2, &packet);
                run.decode(5, &packet);
            }
        }
    }
}

/// Every byte alone and with a second in every mode, every mode number, and the short beginnings of modes 2 and 5.
pub fn bytes_alone(run: &mut Run) {
    run.from("one and two bytes, every mode");
    for mode in 0..=255u8 {
        run.decode(mode, &[]);
        let bytes: Vec<u8> = if mode < 7 { (0..=255).collect() } else { vec![0, b'S', 255] };
        for b in bytes {
            run.decode(mode, &[b]);
            for second in [0, 4, 255] {
                run.decode(mode, &[b, second]);
                run.decode(mode, &[b, 0, 0, 0, second]);
            }
        }
    }
}

/// One content: written as it is, spoiled and with arguments that do not fit; and its frame, whole and damaged, before another.
pub fn random(run: &mut Run, r: &mut Rng) {
    let kind = r.pick(&KINDS);
    let c = content(r, kind);
    run.encode(&c);
    let f = frame(&c);
    run.encode(&spoiled(r, &c));
    run.encode_ours(&misgiven(r, &c));
    let other = r.pick(&KINDS);
    let next = frame(&content(r, other));
    let all = f.len() <= 40 && r.one_in(4);
    around(run, r, kind.mode, &f, &next, all);
}

/// Frames whose length is 1 below, at and 1 above each limit of ours and of the Rust's small ones.
pub fn boundaries(run: &mut Run, r: &mut Rng, turns: usize) {
    run.from("sizes around each limit");
    for _ in 0..turns {
        for k in KINDS.iter().filter(|k| k.framing() != Framing::Bare) {
            let mut c = content(r, k);
            for _ in 0..20 {
                if stretched(&c, 0).is_some() {
                    break;
                }
                c = content(r, k);
            }
            let f = frame(&c);
            let length = (f.len() - k.framing().length_at()) as i64;
            for target in [k.limit - 1, k.limit] {
                // lists step by their element's size and may pass the limit's last bytes
                if let Some(c) = stretched(&c, (target - length) as usize) {
                    run.encode(&c);
                    if let Some(longer) = stretched(&c, 1) {
                        run.encode(&longer);
                    }
                    one_byte_off(run, k.mode, &frame(&c));
                }
            }
            headers(run, k, &f);
        }
    }
}

/// A frame as it is, and with one byte or a length of one more or less.
fn one_byte_off(run: &mut Run, mode: u8, f: &[u8]) {
    run.decode(mode, f);
    run.decode(mode, &f[..f.len() - 1]);
    run.decode(mode, &with_length(mode, f, 1));
    run.decode(mode, &with_length(mode, f, -1));
    let longer = [f, &[0]].concat();
    run.decode(mode, &longer);
    run.decode(mode, &with_length(mode, &longer, 1));
}

/// Each list with a count, of as many elements as a signed count can say and an unsigned one, of one more, and of some between: written; and read,
/// whole and damaged, as the Rust writes it: that has the bytes of all elements, also where the count cannot say so many.
pub fn long_lists(run: &mut Run, r: &mut Rng, turns: usize) {
    run.from("lists of 32,767 to 65,536 elements");
    let (signed, unsigned) = (Count::Signed.most(), Count::Unsigned.most());
    let lists = |k: &'static Kind| (0..k.body.len()).filter(move |i| k.body[*i].smallest_element().is_some()).map(move |i| (k, i));
    for (k, field) in (0..turns).flat_map(|_| KINDS.iter().flat_map(lists)) {
        let between = signed + 1 + r.below(unsigned - signed);
        for n in [signed, signed + 1, 40_000, between, unsigned, unsigned + 1] {
            let (c, at) = with_list_of(r, k, field, n);
            run.encode(&c);
            if let Some(Ok(f)) = oracle::encode(&c) {
                around_list(run, r, &f, &c, field, at);
            }
        }
    }
}

/// The frame of a content with a long list, whose count stands at a place: as it is; before another frame; cut, with the length word mended, where
/// a byte is lacking of what the count needs, where none is, and anywhere; with other counts; and with a value's length below -1.
fn around_list(run: &mut Run, r: &mut Rng, f: &[u8], c: &Content, field: usize, at: usize) {
    let k = numbered(c.kind);
    let next = frame(&content(r, k));
    run.decode(k.mode, f);
    run.decode(k.mode, &[f, &next].concat());
    let (n, first) = (c.fields[field].counted(), at + 2);
    let needed = first + n * k.body[field].smallest_element().expect("a list with a count");
    for cut in [needed - 1, needed, first + r.below(f.len() - first), f.len() - 1] {
        mended(run, k.mode, f, &next, cut);
    }
    let signed = Count::Signed.most();
    for count in [n - 1, n + 1, signed + 1 + r.below(signed + 1)] {
        replaced(run, k.mode, f, &next, at, &(count as u16).to_be_bytes());
    }
    if let Field::Values(values) = &c.fields[field] {
        let place = first + joined(&values[..r.below(n)]).len();
        replaced(run, k.mode, f, &next, place, &(-2i32).to_be_bytes());
    }
}

/// The header of a frame alone, with lengths around every limit of either side.
fn headers(run: &mut Run, k: &Kind, f: &[u8]) {
    let at = k.framing().length_at();
    for limit in [0i64, 4, k.smallest, 8_192, 10_000, 30_000, 1_048_576, 0x3fff_fffe, i32::MAX as i64, -1, i32::MIN as i64] {
        for by in -1..=1 {
            let mut h = f[..k.framing().body_at()].to_vec();
            h[at..at + 4].copy_from_slice(&((limit + by) as i32).to_be_bytes());
            run.decode(k.mode, &h);
        }
    }
}
