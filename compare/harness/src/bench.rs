//! Executed instructions per call, the library's and the Rust's, on the same frames.
//!
//!     compare bench CORPUS            every point once, for a counter that looks at each entry of `bench_mark`
//!     compare table CORPUS COUNTS     the table; COUNTS has the instructions between two marks, a line each
//!
//! Both forms go through the same points in the same order, so that a count is known by its place.

mod building;

use crate::content::{Content, Field, RowField};
use crate::model::{self, named, Count, Framing, KINDS};
use crate::{oracle, ours};
use bytes::BytesMut;
use std::collections::BTreeMap;
use std::hint::black_box;
use tusweram::ffi;

const TURNS: u64 = 100;

/// The counter sees each entry: what was executed since the one before belongs to one point.
#[unsafe(no_mangle)]
#[inline(never)]
pub extern "C" fn bench_mark() {
    black_box(0);
}

/// Where the counts of the points go: nowhere while they are made, and by place when the table is.
struct Points {
    counts: Option<std::vec::IntoIter<u64>>,
}

impl Points {
    /// The instructions of one call, the loop around it taken off.
    fn point(&mut self, calls: u64, mut call: impl FnMut()) -> f64 {
        match &mut self.counts {
            None => {
                bench_mark();
                for _ in 0..TURNS {
                    call();
                }
                bench_mark();
                0.0
            }
            Some(counts) => counts.next().expect("a count for each point") as f64 / (TURNS * calls) as f64,
        }
    }
}

/// One row of the table: decoding and encoding by both, in instructions per frame.
struct Costs {
    name: String,
    bytes: usize,
    decode: f64,
    rust_decode: f64,
    copy: f64,
    encode: f64,
    rust_encode: f64,
}

fn decode_costs(p: &mut Points, frames: &[(u8, &[u8])]) -> (f64, f64, f64) {
    let n = frames.len() as u64;
    let ours = p.point(n, || {
        for (mode, f) in frames {
            black_box(&ours::decode(*mode, black_box(f)));
        }
    });
    let context = oracle::context(frames[0].0);
    let rust = p.point(n, || {
        for (mode, f) in frames {
            oracle::decode_bare(*mode, BytesMut::from(black_box(*f)), &context);
        }
    });
    let copy = p.point(n, || {
        for (_, f) in frames {
            black_box(BytesMut::from(black_box(*f)));
        }
    });
    (ours, rust, copy)
}

fn encode_costs(p: &mut Points, contents: &[Content], room: usize) -> (f64, f64) {
    let given: Vec<_> = contents.iter().map(model::given).collect();
    let mut out = vec![0; room];
    let n = contents.len() as u64;
    let calls: Vec<_> = given.iter().map(ours::prepared).collect();
    assert!(calls.iter().all(|call| call(&mut out) <= room), "contents that can be written");
    let ours = p.point(n, || {
        for call in &calls {
            black_box(call(&mut out));
        }
    });
    let messages: Vec<_> = contents.iter().map(|c| oracle::message(c).expect("text that is UTF-8")).collect();
    let mut out = BytesMut::with_capacity(room);
    let rust = p.point(n, || {
        for m in &messages {
            out.clear();
            oracle::encode_bare(black_box(m), &mut out);
        }
    });
    (ours, rust)
}

fn costs(p: &mut Points, name: String, mode: u8, contents: &[Content]) -> Costs {
    let frames: Vec<Vec<u8>> = contents.iter().map(|c| model::encode(&model::given(c), usize::MAX).expect("a frame")).collect();
    let lent: Vec<(u8, &[u8])> = frames.iter().map(|f| (mode, &f[..])).collect();
    let bytes = frames.iter().map(Vec::len).sum::<usize>();
    let (decode, rust_decode, copy) = decode_costs(p, &lent);
    let (encode, rust_encode) = encode_costs(p, contents, 2_000_000);
    Costs { name, bytes: bytes / frames.len(), decode, rust_decode, copy, encode, rust_encode }
}

/// A content of a kind, with strings and values of `text` bytes and lists of `list` elements.
fn sized(kind: &model::Kind, text: usize, list: usize) -> Content {
    use model::Part::*;
    let letters = |n: usize| (0..n).map(|i| b'a' + (i % 26) as u8).collect::<Vec<u8>>();
    let fields = kind
        .body
        .iter()
        .map(|part| match part {
            Str => Field::Text(letters(text)),
            Rest => Field::Bytes(letters(text)),
            Target => Field::Num(b'S' as i64),
            Status => Field::Num(b'I' as i64),
            I8 => Field::Num(1),
            I32 => Field::Num(7),
            Oids => Field::Oids(vec![23; list]),
            Formats => Field::Formats(vec![1; list]),
            Values => Field::Values(vec![Some(letters(text)); list]),
            RowFields => Field::RowFields(vec![
                RowField {
                    name: letters(text),
                    table_id: 16_384,
                    column_id: 3,
                    type_id: 25,
                    type_size: -1,
                    type_modifier: -1,
                    format_code: 0
                };
                list
            ]),
            Errors => Field::Errors(vec![(b'M', letters(text)); list]),
            Pairs => Field::Pairs((0..list).map(|i| (format!("name{i:04}").into_bytes(), letters(text))).collect()),
        })
        .collect();
    let fields = if kind.framing() == Framing::Bare { vec![Field::Num(0)] } else { fields };
    Content { kind: kind.number, fields }
}

fn generated(p: &mut Points) -> Vec<Costs> {
    use model::Part::*;
    let mut all = Vec::new();
    for (i, k) in KINDS.iter().enumerate() {
        // CopyDone and CopyData go both ways, a cancel request has two modes, and an answer is two bytes: once is enough
        if KINDS[..i].iter().any(|other| other.number == k.number) {
            continue;
        }
        let texts: &[usize] = if k.has(&[Str, Rest, Values, RowFields, Errors, Pairs]) { &[8, 64, 1024] } else { &[0] };
        let lists: &[usize] = match k.body {
            [Pairs] => &[2, 10],
            _ if k.counts == Count::Unsigned => &[1, 10, 100, 900, 40_000],
            _ if k.has(&[Oids, Formats, Values, RowFields]) => &[1, 10, 100, 900],
            _ => &[1],
        };
        for text in texts {
            for list in lists {
                // a longer text beside more than one element tells nothing new
                if *list != lists[0] && *text != texts[0] {
                    continue;
                }
                let size = match (texts.len(), lists.len()) {
                    (1, 1) => String::new(),
                    (1, _) => format!(", {list} elements"),
                    (_, 1) => format!(", strings of {text}"),
                    _ => format!(", strings of {text}, {list} elements"),
                };
                all.push(costs(p, format!("{}{size}", k.name), k.mode, &[sized(k, *text, *list)]));
            }
        }
    }
    all
}

/// The frames of real traffic that the library takes, by kind.
fn real(p: &mut Points, traffic: &[(u8, Vec<u8>)]) -> Vec<Costs> {
    let mut kinds: BTreeMap<(u8, u8), Vec<Content>> = BTreeMap::new();
    for (mode, f) in traffic {
        let answer = model::decode(*mode, f);
        if let (model::Answer::Record(k, _, _), Some(c)) = (&answer, model::content(&answer, f)) {
            let of = kinds.entry((*mode, k.number)).or_default();
            if of.len() < 200 && oracle::message(&c).is_some() {
                of.push(c);
            }
        }
    }
    let name = |number: u8, n: usize| format!("{}, {n} real frames", model::numbered(number).name);
    kinds.iter().map(|((mode, number), cs)| costs(p, name(*number, cs.len()), *mode, cs)).collect()
}

struct Single {
    name: String,
    cost: f64,
}

fn single(p: &mut Points, name: String, call: &mut dyn FnMut()) -> Single {
    Single { name, cost: p.point(1, call) }
}

/// The frame of a kind, with strings of `text` bytes and a list of `n`.
fn frame_of(name: &str, text: usize, n: usize) -> Vec<u8> {
    model::encode(&model::given(&sized(named(name), text, n)), usize::MAX).expect("a frame")
}

/// The `n` items of a list, which stand from `start` to `end`, each by a call.
fn each_by_a_call(p: &mut Points, name: String, (start, end): (usize, usize), n: usize, call: impl Fn(usize) -> ffi::Row) -> Single {
    single(p, name, &mut || {
        let mut at = start;
        for _ in 0..n {
            at = black_box(&call(at))[3];
        }
        assert!(at == end);
    })
}

/// The values of a Bind, each by a call, and an element call for the last. It is not inlined, so that it changes no other point's loop.
#[inline(never)]
fn parameters(p: &mut Points) -> Vec<Single> {
    let mut all = Vec::new();
    for n in [900, 40_000] {
        let f = frame_of("Bind", 8, n);
        let model::Answer::Record(kind, _, slots) = model::decode(0, &f) else { panic!("a frame that is taken") };
        let [_, (_, start, _), (_, results, _)] = model::lists(kind, &slots)[..] else { panic!("Bind has three lists") };
        let name = format!("Bind of {n} values: each value by a call, after decode");
        all.push(each_by_a_call(p, name, (start, results - 2), n, |at| ours::value(black_box(&f), at)));
        all.push(single(p, format!("Bind of {n} values: an element call for the last"), &mut || {
            black_box(&ours::element(0, black_box(&f), 1, n - 1));
        }));
    }
    all
}

/// What the reader and an element call cost on a row of up to 900 columns.
fn rows(p: &mut Points) -> Vec<Single> {
    let mut all = Vec::new();
    for n in [1, 10, 100, 900] {
        let f = frame_of("DataRow", 8, n);
        let (mut starts, mut lengths) = (vec![0; n], vec![0; n]);
        all.push(single(p, format!("row of {n} columns: decoded, and every value placed, in one call"), &mut || {
            black_box(&ours::data_row(black_box(&f), &mut starts, &mut lengths));
        }));
        let name = format!("row of {n} columns: each value by a call, after decode");
        all.push(each_by_a_call(p, name, (7, f.len()), n, |at| ours::value(black_box(&f), at)));
        all.push(single(p, format!("row of {n} columns: an element call for the first"), &mut || {
            black_box(&ours::element(1, black_box(&f), 0, 0));
        }));
        all.push(single(p, format!("row of {n} columns: an element call for the last"), &mut || {
            black_box(&ours::element(1, black_box(&f), 0, n - 1));
        }));
    }
    all
}

/// The fields of a description and the pairs of a start-up, each by a call.
fn walks(p: &mut Points) -> Vec<Single> {
    let mut all = Vec::new();
    for n in [1, 10, 100, 900] {
        let f = frame_of("RowDescription", 8, n);
        let name = format!("description of {n} columns: each field by a call, after decode");
        all.push(each_by_a_call(p, name, (7, f.len()), n, |at| ours::field(black_box(&f), at)));
    }
    for n in [2, 10] {
        let f = frame_of("Startup", 8, n);
        let name = format!("start-up of {n} pairs: each pair by a call, after decode");
        all.push(each_by_a_call(p, name, (8, f.len() - 1), n, |at| ours::pair(black_box(&f), at)));
    }
    all
}

/// A string, and memchr beside it.
fn strings(p: &mut Points) -> Vec<Single> {
    let mut all = Vec::new();
    for n in [0usize, 8, 64, 1024] {
        let f = frame_of("CommandComplete", n, 0);
        all.push(single(p, format!("CommandComplete with a tag of {n}"), &mut || {
            black_box(&ours::decode(1, black_box(&f)));
        }));
        all.push(single(p, format!("memchr over {n} bytes and the zero"), &mut || {
            black_box(zero_in(black_box(&f[5..])));
        }));
    }
    all
}

unsafe extern "C" {
    fn memchr(s: *const u8, c: i32, n: usize) -> *const u8;
}

fn zero_in(s: &[u8]) -> *const u8 {
    unsafe { memchr(s.as_ptr(), 0, s.len()) }
}

fn shown(c: &Costs) {
    let rust = c.rust_decode - c.copy;
    println!(
        "| {} | {} | {:.0} | {:.0} | {:.0} | {:.2} | {:.0} | {:.0} | {:.2} |",
        c.name,
        c.bytes,
        c.decode,
        rust,
        c.copy,
        c.decode / rust,
        c.encode,
        c.rust_encode,
        c.encode / c.rust_encode
    );
}

fn table(title: &str, rows: &[Costs]) {
    println!("\n### {title}\n");
    println!("| Frame | Bytes | Decode | pgwire's decode | its copy | ratio | Encode | pgwire's encode | ratio |");
    println!("|---|---|---|---|---|---|---|---|---|");
    rows.iter().for_each(shown);
}

/// Goes through all points; shows the table where there are counts.
pub fn run(traffic: &[(u8, Vec<u8>)], counts: Option<Vec<u64>>) {
    let show = counts.is_some();
    let mut p = Points { counts: counts.map(Vec::into_iter) };
    let empty = p.point(1, || {
        black_box(0);
    });
    let real = real(&mut p, traffic);
    let generated = generated(&mut p);
    let singles: Vec<Single> = [rows(&mut p), parameters(&mut p), walks(&mut p), strings(&mut p)].into_iter().flatten().collect();
    let built = building::run(&mut p, empty);
    if !show {
        return;
    }
    println!("An empty turn of the loop: {empty:.1} instructions, in every figure.");
    table("Real traffic", &real);
    table("Generated frames", &generated);
    println!("\n### Rows, elements and strings\n\n| Call | Instructions |\n|---|---|");
    singles.iter().for_each(|s| println!("| {} | {:.0} |", s.name, s.cost));
    building::shown(&built, &generated);
    growth(&generated, &singles);
    building::growth(&built);
}

/// The slopes: what one more column, element or byte costs.
fn growth(generated: &[Costs], singles: &[Single]) {
    println!("\n### Growth\n\n| Of | Decode | pgwire's | Encode | pgwire's |\n|---|---|---|---|---|");
    let find = |name: &str| generated.iter().find(|c| c.name == name);
    for k in KINDS.iter() {
        let pairs = [
            (format!("{}, strings of 8, 100 elements", k.name), format!("{}, strings of 8, 900 elements", k.name), "element"),
            (format!("{}, 100 elements", k.name), format!("{}, 900 elements", k.name), "element"),
            (format!("{}, strings of 8, 900 elements", k.name), format!("{}, strings of 8, 40000 elements", k.name), "element past 900"),
            (format!("{}, 900 elements", k.name), format!("{}, 40000 elements", k.name), "element past 900"),
            (format!("{}, strings of 64", k.name), format!("{}, strings of 1024", k.name), "byte"),
        ];
        for (few, many, what) in pairs {
            if let (Some(a), Some(b)) = (find(&few), find(&many)) {
                let by = match what {
                    "byte" => (b.bytes - a.bytes) as f64,
                    "element" => 800.0,
                    _ => 39_100.0,
                };
                let slope = |f: fn(&Costs) -> f64| (f(b) - f(a)) / by;
                println!(
                    "| {}, one more {what} | {:.2} | {:.2} | {:.2} | {:.2} |",
                    k.name,
                    slope(|c| c.decode),
                    slope(|c| c.rust_decode - c.copy),
                    slope(|c| c.encode),
                    slope(|c| c.rust_encode)
                );
            }
        }
    }
    growth_of_calls(singles);
}

fn growth_of_calls(singles: &[Single]) {
    let cost = |name: &str| singles.iter().find(|s| s.name == name).map_or(0.0, |s| s.cost);
    for (of, what) in [
        ("row", "decoded, and every value placed, in one call"),
        ("row", "each value by a call, after decode"),
        ("row", "an element call for the last"),
        ("description", "each field by a call, after decode"),
    ] {
        let slope = (cost(&format!("{of} of 900 columns: {what}")) - cost(&format!("{of} of 100 columns: {what}"))) / 800.0;
        println!("| a {of}, one more column: {what} | {slope:.2} | | | |");
    }
}
