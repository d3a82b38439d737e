//! Real traffic, frame by frame.

use super::damaged::around;
use super::Rng;
use crate::judging::Run;
use crate::model::{framing, Framing};
use crate::oracle;

/// A frame and its mode.
pub type Moded = (u8, Vec<u8>);

/// The frames of every stream of a folder.
pub fn corpus(folder: &str) -> Vec<Moded> {
    let mut names: Vec<_> = match std::fs::read_dir(folder) {
        Ok(d) => d.map(|e| e.unwrap().path()).filter(|p| p.extension().is_some_and(|e| e == "bin")).collect(),
        Err(_) => return vec![],
    };
    names.sort();
    names.iter().flat_map(|p| frames(&std::fs::read(p).unwrap(), p.to_string_lossy().ends_with(".front.bin"))).collect()
}

/// A stream by its own length words: the frames, each in its mode.
fn frames(stream: &[u8], front: bool) -> Vec<Moded> {
    let mut out = Vec::new();
    let mut at = 0;
    let word = |at: usize| u32::from_be_bytes(stream[at..at + 4].try_into().unwrap()) as usize;
    // the client's first packet, and after a request for encryption another, has no type byte: its length is small, and so begins with zero
    while front && at + 8 <= stream.len() && stream[at] == 0 {
        let n = word(at);
        out.push((5, stream[at..at + n].to_vec()));
        at += n;
    }
    // the answer to a request for TLS or GSS encryption: one byte before the first message
    while !front && at < stream.len() && (stream[at] == b'N' || stream[at] == b'S') && stream.get(at + 1) != Some(&0) {
        out.push((3, vec![stream[at]]));
        at += 1;
    }
    while at + 5 <= stream.len() {
        let n = word(at + 1) + 1;
        out.push((if front { 0 } else { 1 }, stream[at..(at + n).min(stream.len())].to_vec()));
        at += n;
    }
    out
}

/// The frames of a type that is left out, under the first such type: it stands for all of them in the fixed list.
pub fn left_out(frames: &[Moded]) -> Vec<Moded> {
    let mut out = Vec::new();
    for (mode, f) in frames.iter().filter(|(mode, _)| framing(*mode) == Some(Framing::Typed)) {
        let types: Vec<u8> = oracle::left_out(*mode).collect();
        if types.contains(&f[0]) {
            out.push((*mode, [&types[..1], &f[1..]].concat()));
        }
    }
    out
}

/// Each frame, alone and with the next one behind it; and of one in `damage` what damage makes of it.
pub fn real_traffic(run: &mut Run, r: &mut Rng, frames: &[Moded], damage: usize) {
    for (i, (mode, f)) in frames.iter().enumerate() {
        run.from("real traffic, frame by frame");
        run.decode(*mode, f);
        if let Some((m, next)) = frames.get(i + 1) {
            if m == mode {
                run.from("real traffic, with the next frame");
                run.decode(*mode, &[&f[..], next].concat());
            }
        }
        if f.len() > 5 && r.one_in(damage) {
            around(run, r, *mode, f, f, false);
        }
    }
}
