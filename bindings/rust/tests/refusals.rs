//! Every refusal, with its number and place, by docs/FORMAT.md 6 and its frames that show the edges.

mod common;

use common::{cannot, hex, is_kind, set_length};
use tusweram::*;

fn refused(mode: Mode, text: &str, number: u8, place: usize) {
    refused_bytes(mode, &hex(text), number, place, text);
}

fn refused_bytes(mode: Mode, buf: &[u8], number: u8, place: usize, text: &str) {
    let refusal = Refusal { number, place };
    assert_eq!(decode(mode, buf), Decoded::Refused(refusal), "{text}");
    // decoding's own refusal comes first, whichever element is asked for
    assert_eq!(element(mode, buf, 0, 0), Element::Refused(refusal), "{text}");
    assert_eq!(element(mode, buf, 9, usize::MAX), Element::Refused(refusal), "{text}");
    if mode == Mode::Backend {
        assert_eq!(data_row(buf, &mut [], &mut []), Row::Refused(refusal), "{text}");
    }
}

fn waits(mode: Mode, text: &str) {
    assert_eq!(decode(mode, &hex(text)), Decoded::NeedMore, "{text}");
    assert_eq!(element(mode, &hex(text), 0, 0), Element::NeedMore, "{text}");
}

#[test]
fn refusal_1_mode_unknown() {
    for number in 0..=5 {
        assert_eq!(Mode::try_from(number).map(|mode| mode as u8), Ok(number));
    }
    for number in 6..=255 {
        let refusal = Mode::try_from(number).unwrap_err();
        assert_eq!((refusal.number, refusal.place), (1, 0));
        assert_eq!(ffi::decode(number, b"")[..3], [2, 1, 0]);
    }
}

#[test]
fn refusal_2_type_unknown() {
    for mode in [Mode::Frontend, Mode::Backend] {
        for byte in (0..=255).filter(|byte| !is_kind(mode, *byte)) {
            refused(mode, &format!("{byte:02X} 00 00 00 04"), 2, 0);
            refused(mode, &format!("{byte:02X}"), 2, 0);
        }
    }
    refused(Mode::SslResponse, "45", 2, 0);
    refused(Mode::SslResponse, "47", 2, 0);
    refused(Mode::GssEncResponse, "53", 2, 0);
    refused(Mode::CancelRequest, "00 00 00 10 04 D2 16 2F", 2, 4);
    waits(Mode::CancelRequest, "00 00 00 10 04 D2 16");
    // only a request to cancel has a code of mode 2
    refused(Mode::CancelRequest, "00 00 00 09 00 03 00 00 00", 2, 4);
    // before 8 bytes nothing is tested, and then the code is, whatever the length says
    waits(Mode::FirstPacket, "00 00 00 00 00 00 00");
    refused(Mode::FirstPacket, "00 00 00 00 00 00 00 00", 2, 4);
    refused(Mode::FirstPacket, "FF FF FF FF 00 03 00 01", 2, 4);
    refused(Mode::FirstPacket, "00 00 00 09 00 03 00 02 00", 2, 4);
    refused(Mode::FirstPacket, "00 00 00 08 04 D2 16 31", 2, 4);
    refused(Mode::FirstPacket, "00 00 00 10 04 D2 16 2D", 2, 4);
}

#[test]
fn refusal_3_length_too_small() {
    refused(Mode::Frontend, "53 00 00 00 03", 3, 1);
    refused(Mode::Frontend, "64 FF FF FF FF", 3, 1);
    refused(Mode::Frontend, "42 00 00 00 0B", 3, 1);
    refused(Mode::Backend, "54 00 00 00 05", 3, 1);
    refused(Mode::CancelRequest, "00 00 00 0F 04 D2 16 2E", 3, 0);
    waits(Mode::Frontend, "53 00 00 00");
    refused(Mode::Frontend, "51 00 00 00 04", 3, 1);
    refused(Mode::Frontend, "58 00 00 00 03", 3, 1);
    // Sync's bytes, from a server
    refused(Mode::Backend, "53 00 00 00 04", 3, 1);
    refused(Mode::Backend, "4B 00 00 00 0B", 3, 1);
    refused(Mode::FirstPacket, "00 00 00 08 00 03 00 00", 3, 0);
    refused(Mode::FirstPacket, "80 00 00 00 00 03 00 00", 3, 0);
    refused(Mode::FirstPacket, "00 00 00 07 04 D2 16 2F", 3, 0);
    refused(Mode::FirstPacket, "00 00 00 07 04 D2 16 30", 3, 0);
    refused(Mode::FirstPacket, "00 00 00 0F 04 D2 16 2E", 3, 0);
}

#[test]
fn refusal_4_length_above_limit() {
    // tests/kinds.rs has this of every encoder
    waits(Mode::Frontend, "45 00 00 20 00");
    refused(Mode::Frontend, "45 00 00 20 01", 4, 1);
    waits(Mode::Frontend, "50 00 10 00 00");
    refused(Mode::Frontend, "50 00 10 00 01", 4, 1);
    refused(Mode::Backend, "44 7F FF FF FF", 4, 1);
    refused(Mode::CancelRequest, "00 00 20 01 04 D2 16 2E", 4, 0);
    waits(Mode::CancelRequest, "00 00 20 00 04 D2 16 2E");
    for code in ["00 03 00 00", "04 D2 16 2E", "04 D2 16 2F", "04 D2 16 30"] {
        waits(Mode::FirstPacket, &format!("00 00 20 00 {code}"));
        refused(Mode::FirstPacket, &format!("00 00 20 01 {code}"), 4, 0);
    }
    for (mode, byte) in [(Mode::Frontend, "51"), (Mode::Frontend, "58"), (Mode::Backend, "53"), (Mode::Backend, "4B")] {
        waits(mode, &format!("{byte} 00 00 20 00"));
        refused(mode, &format!("{byte} 00 00 20 01"), 4, 1);
    }
}

#[test]
fn refusal_5_count() {
    refused(Mode::Backend, "54 00 00 00 06 FF FF", 5, 5);
    refused(Mode::Backend, "44 00 00 00 06 00 01", 5, 5);
    refused(Mode::Frontend, "50 00 00 00 0B 00 00 00 01 00 00 00", 5, 7);
    refused(Mode::Frontend, "42 00 00 00 0C 00 00 00 00 00 00 00 01", 5, 11);
    refused(Mode::Backend, "47 00 00 00 07 00 80 00", 5, 6);
    // an unsigned count too is refused where its elements are not there
    refused(Mode::Frontend, "50 00 00 00 08 00 00 FF FF", 5, 7);
    refused(Mode::Frontend, "42 00 00 00 0C 00 00 80 00 00 00 00 00", 5, 7);
    refused(Mode::Backend, "74 00 00 00 06 80 00", 5, 5);
}

/// The counted lists that can be long, in frames whose other fields are empty: the mode, the type byte, where the count stands, the bytes of the
/// smallest element, the bytes behind the last one, and the most that the count can say.
const LONG: &[(Mode, u8, usize, usize, usize, usize)] = &[
    (Mode::Frontend, b'P', 7, 4, 0, 65535),
    (Mode::Frontend, b'B', 7, 2, 4, 65535),
    (Mode::Frontend, b'B', 9, 4, 2, 65535),
    (Mode::Frontend, b'B', 11, 2, 0, 65535),
    (Mode::Backend, b't', 5, 4, 0, 65535),
    (Mode::Backend, b'T', 5, 19, 0, 32767),
    (Mode::Backend, b'D', 5, 4, 0, 32767),
];

#[test]
fn refusal_5_of_a_long_list() {
    for &(mode, byte, at, element, behind, most) in LONG {
        // the top bit clear, the top bit set, and the most
        for count in [32767, 32768, most] {
            let text = format!("{} at {at}, {count} elements", byte as char);
            // zeros are smallest elements, empty texts and empty lists
            let elements_end = at + 2 + count * element;
            let mut frame = vec![0; elements_end + behind];
            frame[0] = byte;
            frame[at..at + 2].copy_from_slice(&(count as u16).to_be_bytes());
            set_length(mode, &mut frame);
            if count > most {
                refused_bytes(mode, &frame, 5, at, &text);
            } else {
                assert!(matches!(decode(mode, &frame), Decoded::Record(_, n) if n == frame.len()), "{text}");
            }
            frame.truncate(elements_end - 1);
            set_length(mode, &mut frame);
            refused_bytes(mode, &frame, 5, at, &text);
        }
    }
}

#[test]
fn refusal_6_cut() {
    refused(Mode::Backend, "43 00 00 00 06 4F 4B", 6, 5);
    // a zero byte behind the frame does not end its text
    refused(Mode::Backend, "43 00 00 00 06 4F 4B 00", 6, 5);
    refused(Mode::Frontend, "45 00 00 00 09 61 00 00 00 00", 6, 7);
    refused(Mode::Backend, "44 00 00 00 0B 00 01 00 00 00 02 61", 6, 7);
    refused(Mode::Backend, "45 00 00 00 08 53 61 00 4D", 6, 9);
    refused(Mode::Backend, "45 00 00 00 07 53 61 00", 6, 8);
    refused(Mode::Frontend, "51 00 00 00 05 61", 6, 5);
    refused(Mode::Backend, "53 00 00 00 06 61 62", 6, 5);
    // a value that is missing begins at the frame's end
    refused(Mode::Backend, "53 00 00 00 06 61 00", 6, 7);
    refused(Mode::Backend, "53 00 00 00 06 61 00 00", 6, 7);
    // a start-up packet: no zero byte ends the name; the value is missing; none ends the value; none ends the list; the second pair's value
    refused(Mode::FirstPacket, "00 00 00 0A 00 03 00 00 61 62", 6, 8);
    refused(Mode::FirstPacket, "00 00 00 0A 00 03 00 00 61 62 00 00 00", 6, 8);
    refused(Mode::FirstPacket, "00 00 00 0A 00 03 00 00 61 00", 6, 10);
    refused(Mode::FirstPacket, "00 00 00 0B 00 03 00 00 61 00 62", 6, 10);
    refused(Mode::FirstPacket, "00 00 00 0B 00 03 00 00 61 00 62 00 00", 6, 10);
    refused(Mode::FirstPacket, "00 00 00 0B 00 03 00 00 61 00 00", 6, 11);
    refused(Mode::FirstPacket, "00 00 00 0B 00 03 00 00 61 00 00 00", 6, 11);
    refused(Mode::FirstPacket, "00 00 00 0D 00 03 00 00 61 00 00 62 00", 6, 13);
}

#[test]
fn refusal_7_not_allowed() {
    refused(Mode::Frontend, "42 00 00 00 10 00 00 00 00 00 01 FF FF FF FE 00 00", 7, 11);
    refused(Mode::Backend, "5A 00 00 00 05 58", 7, 5);
    refused(Mode::Frontend, "43 00 00 00 06 58 00", 7, 5);
    refused(Mode::Frontend, "44 00 00 00 06 00 00", 7, 5);
    refused(Mode::Backend, "44 00 00 00 0A 00 01 80 00 00 00", 7, 7);
}

#[test]
fn refusal_8_bytes_left() {
    refused(Mode::Frontend, "53 00 00 00 05 00", 8, 5);
    refused(Mode::Backend, "5A 00 00 00 06 49 00", 8, 6);
    refused(Mode::Backend, "45 00 00 00 06 00 53", 8, 6);
    for mode in [Mode::CancelRequest, Mode::FirstPacket] {
        refused(mode, "00 00 00 11 04 D2 16 2E 00 00 00 07 00 00 00 09 00", 8, 16);
        waits(mode, "00 00 00 11 04 D2 16 2E 00 00 00 07 00 00 00 09");
    }
    for code in ["04 D2 16 2F", "04 D2 16 30"] {
        refused(Mode::FirstPacket, &format!("00 00 00 09 {code} 00"), 8, 8);
        waits(Mode::FirstPacket, &format!("00 00 00 09 {code}"));
    }
    // a zero byte in a name's place ends the list
    refused(Mode::FirstPacket, "00 00 00 0A 00 03 00 00 00 00", 8, 9);
    refused(Mode::FirstPacket, "00 00 00 0E 00 03 00 00 61 00 00 00 62 00", 8, 12);
    refused(Mode::Frontend, "51 00 00 00 06 00 61", 8, 6);
    refused(Mode::Frontend, "58 00 00 00 05 00", 8, 5);
    refused(Mode::Backend, "53 00 00 00 07 00 00 00", 8, 7);
    refused(Mode::Backend, "4B 00 00 00 0D 00 00 00 07 00 00 00 09 00", 8, 13);
}

#[test]
fn refusal_9_output_too_short() {
    // tests/kinds.rs has this of every encoder
    cannot(9, encode::sync(&mut [0; 4]));
    cannot(9, encode::sync(&mut []));
    cannot(9, encode::ssl_response(SslResponse::Accept, &mut []));
    let row = hex("44 00 00 00 10 00 02 00 00 00 02 61 62 FF FF FF FF");
    let nine = Row::Refused(Refusal { number: 9, place: 0 });
    assert_eq!(data_row(&row, &mut [0], &mut [0, 0]), nine);
    assert_eq!(data_row(&row, &mut [0, 0], &mut [0]), nine);
}

#[test]
fn refusal_10_not_representable() {
    // tests/kinds.rs has this of every text, every counted list, and every byte that is one of some
    let out = &mut [0; 64];
    // an error's code is zero
    cannot(10, encode::notice_response(b"S\0", &[0, 0], b"", out));
    // a length below -1; lengths that do not add up
    cannot(10, encode::data_row(&[-2], b"", out));
    cannot(10, encode::data_row(&[i32::MIN], b"", out));
    cannot(10, encode::data_row(&[1], b"", out));
    cannot(10, encode::data_row(&[1], b"ab", out));
    cannot(10, encode::data_row(&[-1], b"a", out));
    cannot(10, encode::data_row(&[i32::MAX; 3], b"", out));
    cannot(10, encode::bind(b"", b"", &[], &[-2], b"", &[], out));
    cannot(10, encode::bind(b"", b"", &[], &[2], b"a", &[], out));
    cannot(10, encode::error_response(b"S", &[1], b"", out));
    cannot(10, encode::error_response(b"S", &[1], b"ab", out));
    cannot(10, encode::error_response(b"S", &[u32::MAX], b"a", out));
    // an error's codes and lengths differ in number
    cannot(10, encode::error_response(b"SM", &[1], b"a", out));
    cannot(10, encode::notice_response(b"S", &[1, 0], b"a", out));
    // a name outside the run
    let field = FieldDescription { name: Span { start: 0, len: 1 }, ..FieldDescription::default() };
    cannot(10, encode::row_description(&[field], b"", out));
    // 10 comes before 4 and 9, and nothing was written
    cannot(10, encode::command_complete(&[0; 9000], &mut []));
    assert_eq!(*out, [0; 64]);
}

#[test]
fn refusal_10_of_a_start_up_packet() {
    let out = &mut [0; 64];
    // an odd number of lengths, which add up or not; an empty name; lengths that do not add up; a zero byte
    cannot(10, encode::startup(&[4], b"user", out));
    cannot(10, encode::startup(&[1, 1, 1], b"abc", out));
    cannot(10, encode::startup(&[1, 0, 0], b"a", out));
    cannot(10, encode::startup(&[0, 0], b"", out));
    cannot(10, encode::startup(&[0, 1], b"a", out));
    cannot(10, encode::startup(&[1, 1, 0, 1], b"abc", out));
    cannot(10, encode::startup(&[], b"a", out));
    cannot(10, encode::startup(&[1, 1], b"a", out));
    cannot(10, encode::startup(&[1, 1], b"abc", out));
    cannot(10, encode::startup(&[1, u32::MAX], b"a", out));
    cannot(10, encode::startup(&[u32::MAX, 1], b"", out));
    cannot(10, encode::startup(&[2, 0], b"a\0", out));
    cannot(10, encode::startup(&[1, 1], b"a\0", out));
    // 10 comes before 4 and 9, and 4 before 9
    cannot(10, encode::startup(&[0, 9000], &[b'a'; 9000], &mut []));
    cannot(10, encode::startup(&[9000], &[b'a'; 9000], &mut []));
    cannot(4, encode::startup(&[1, 8999], &[b'a'; 9000], &mut []));
    assert_eq!(*out, [0; 64]);
}

#[test]
fn refusal_11_no_such_element() {
    let eleven = Element::Refused(Refusal { number: 11, place: 0 });
    let row = hex("44 00 00 00 10 00 02 00 00 00 02 61 62 FF FF FF FF");
    let bind = hex("42 00 00 00 10 00 00 00 00 00 01 FF FF FF FF 00 00");
    assert_eq!(element(Mode::Backend, &row, 0, 2), eleven);
    assert_eq!(element(Mode::Backend, &row, 1, 0), eleven);
    assert_eq!(element(Mode::Frontend, &bind, 0, 0), eleven);
    assert_eq!(element(Mode::Frontend, &bind, 1, 0), Element::Null);
    assert_eq!(element(Mode::Frontend, &bind, 1, 1), eleven);
    assert_eq!(element(Mode::Frontend, &bind, 3, 0), eleven);
    assert_eq!(element(Mode::Frontend, &hex("53 00 00 00 04"), 0, 0), eleven);
    assert_eq!(element(Mode::SslResponse, b"S", 0, 0), eleven);
    let startup = hex("00 00 00 0D 00 03 00 00 61 00 62 00 00");
    assert_eq!(element(Mode::FirstPacket, &startup, 0, 0), Element::Pair(b"a", b"b"));
    assert_eq!(element(Mode::FirstPacket, &startup, 0, 1), eleven);
    assert_eq!(element(Mode::FirstPacket, &startup, 1, 0), eleven);
    assert_eq!(element(Mode::FirstPacket, &hex("00 00 00 08 04 D2 16 2F"), 0, 0), eleven);
    let none = Row::Refused(Refusal { number: 11, place: 0 });
    assert_eq!(data_row(&hex("31 00 00 00 04"), &mut [0], &mut [0]), none);
}

#[test]
fn a_refusal_prints_what_and_where() {
    let error: &dyn std::error::Error = &Refusal { number: 8, place: 5 };
    assert_eq!(error.to_string(), "refusal 8 at 5: bytes are left over after the last field");
    let mut texts: Vec<_> = (1..=12).map(|number| Refusal { number, place: 0 }.what()).collect();
    assert_eq!(texts[11], "a number that this crate does not know");
    texts.sort();
    texts.dedup();
    assert_eq!(texts.len(), 12);
}
