//! Real traffic, each stream from its first byte: every frame that is in scope decodes, all its values can be walked, and written again it has
//! the same bytes. The streams are in PG_CORPUS, else in shared/corpus beside the repository.

mod common;

use std::fs;
use std::path::{Path, PathBuf};

use common::{is_coded, is_kind, round_trip};
use tusweram::*;

fn folder() -> PathBuf {
    match std::env::var_os("PG_CORPUS") {
        Some(folder) => PathBuf::from(folder),
        None => Path::new(env!("CARGO_MANIFEST_DIR")).join("../../../shared/corpus"),
    }
}

/// Whether the frame is of a kind that is read here. Authentication is not, nor a start-up packet of another protocol than 3.0.
fn in_scope(mode: Mode, frame: &[u8]) -> bool {
    match mode {
        Mode::Frontend | Mode::Backend => is_kind(mode, frame[0]),
        Mode::FirstPacket => is_coded(mode, word(&frame[4..]) as u32),
        _ => true,
    }
}

fn word(bytes: &[u8]) -> usize {
    u32::from_be_bytes(bytes[..4].try_into().unwrap()) as usize
}

/// A stream by its own length words. The client's first packets have no type byte, and an answer to a request for encryption is one byte.
fn frames(stream: &[u8], front: bool) -> Vec<(Mode, &[u8])> {
    let mut rest = stream;
    let mut frames = Vec::new();
    while !rest.is_empty() {
        let (mode, n) = match (front, rest) {
            (true, [0, ..]) => (Mode::FirstPacket, word(rest)),
            (false, [b'S' | b'N', next, ..]) if *next != 0 => (Mode::SslResponse, 1),
            (true, _) => (Mode::Frontend, 1 + word(&rest[1..])),
            (false, _) => (Mode::Backend, 1 + word(&rest[1..])),
        };
        let (frame, after) = rest.split_at(n);
        frames.push((mode, frame));
        rest = after;
    }
    frames
}

#[test]
fn real_traffic() {
    let Ok(entries) = fs::read_dir(folder()) else {
        println!("corpus: skipped: PG_CORPUS names no folder, and shared/corpus is not beside the repository");
        return;
    };
    let mut paths: Vec<_> = entries.map(|entry| entry.unwrap().path()).collect();
    paths.retain(|path| path.extension().is_some_and(|end| end == "bin"));
    paths.sort();
    let (mut read, mut left, mut damaged, mut values, mut pairs) = (0, 0, 0, 0, 0);
    for path in &paths {
        let stream = fs::read(path).unwrap();
        let name = path.file_name().unwrap().to_string_lossy();
        for (mode, frame) in frames(&stream, name.ends_with(".front.bin")) {
            if !in_scope(mode, frame) {
                left += 1;
                continue;
            }
            // raw.1 was written by hand, with two frames that the server refused too
            if name.starts_with("raw.") && matches!(decode(mode, frame), Decoded::Refused(_)) {
                damaged += 1;
                continue;
            }
            read += 1;
            match round_trip(mode, frame) {
                Message::DataRow(row) => values += row.data.iter().count(),
                Message::Bind(bind) => values += bind.parameters.iter().count(),
                Message::Startup(startup) => pairs += startup.parameters.iter().count(),
                _ => {}
            }
        }
    }
    println!(
        "corpus: {read} frames of {} streams with {values} values and {pairs} start-up pairs; {left} of kinds that are not read here, {damaged} damaged by hand",
        paths.len()
    );
    assert!(read > 0 && values > 0 && pairs > 0);
}
