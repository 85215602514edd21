//! Request §4: where BK's refusals point, worked by hand. Each is a number, a place and a field.

mod common;

use common::bk::*;
use common::command::{answered, answered_with, Command, P2, P9};
use common::{at, bytes, done, refused, restricted, unrestricted};
use reference::{answer, ask, usual, Settings};

/// Where the fields of the paper's run begin, with their numbers: a header of 4 and a code of 2,
/// then 3, 33, 33, 16, 2, 2, 12, 16 and 12 characters.
const FIELDS: [(u32, u32); 9] =
    [(6, 1), (9, 2), (42, 3), (75, 4), (91, 5), (93, 6), (95, 7), (107, 8), (123, 9)];
const END: u32 = 135;

fn told(field: usize, text: &[u8]) -> (u32, u32, u32) {
    of_the_paper().with(field, text).told(usual())
}

fn hex_key(last: u8) -> Vec<u8> {
    [b"U".to_vec(), vec![b'0'; 31], vec![last]].concat()
}

/// A trailer of so many characters; one of them may be a bad one.
fn trailer(length: usize, bad: Option<usize>) -> Vec<u8> {
    let mut trailer = [vec![0x19], vec![b'~'; length]].concat();
    bad.into_iter().for_each(|bad| trailer[bad] = 0x7F);
    trailer
}

/// "the byte position in the command where the field that failed begins, and which field number":
/// also where the wrong character is the field's last.
#[test]
fn each_field() {
    assert_eq!(told(KEY_TYPE, b"003"), (15, 6, 1));
    assert_eq!(told(PIN_KEY, &hex_key(b'g')), (15, 9, 2));
    assert_eq!(told(PIN_KEY, b"X"), (26, 9, 2));
    assert_eq!(told(PVK, &hex_key(b'f')), (15, 42, 3));
    assert_eq!(told(PVK, b"S"), (26, 42, 3));
    assert_eq!(told(PIN_BLOCK, b"000000000000000a"), (15, 75, 4));
    assert_eq!(told(FORMAT, b"0A"), (15, 91, 5));
    assert_eq!(told(FORMAT, b"02"), (23, 91, 5));
    assert_eq!(of_the_paper().with(FORMAT, b"41").told(unrestricted()), (69, 91, 5));
    assert_eq!(told(CHECK, b"13"), (15, 93, 6));
    assert_eq!(told(CHECK, b"0A"), (15, 93, 6));
    assert_eq!(told(ACCOUNT_FIELD, b"40000012345A"), (15, 95, 7));
    assert_eq!(told(TABLE_FIELD, b"012345678901234A"), (25, 107, 8));
    assert_eq!(told(VALIDATION, b"0123456789AB"), (15, 123, 9));
    assert_eq!(told(VALIDATION, b"P0123456789ABCDEG"), (15, 123, 9));
}

/// An optional field begins at its mark.
#[test]
fn each_optional_field() {
    assert_eq!(told(OPTIONS, b";0A"), (3, END, 10));
    assert_eq!(told(OPTIONS, b";"), (3, END, 10));
    assert_eq!(told(OPTIONS, b";0113"), (15, END, 10));
    assert_eq!(told(OPTIONS, b";01"), (15, END, 10));
    assert_eq!(told(OPTIONS, b";0104123"), (3, END, 10));
    assert_eq!(told(OPTIONS, b";0104123A"), (3, END, 10));
    assert_eq!(told(OPTIONS, b"%10"), (15, END, 11));
    assert_eq!(told(OPTIONS, b"%0"), (15, END, 11));
    assert_eq!(told(OPTIONS, b";00%1A"), (15, END + 3, 11));
    assert_eq!(told(OPTIONS, b";01041234%"), (15, END + 9, 11));
    assert_eq!(told(OPTIONS, b"\x19a\x7F"), (15, END, 12));
    assert_eq!(told(OPTIONS, b"%09\x19\x7F"), (15, END + 3, 12));
    assert_eq!(told(OPTIONS, b";00%09\x19\x19"), (15, END + 6, 12));
}

/// "BK allows all six, or restricted only 01 and 47": a fault of the format's field, and by request
/// §5 a usual one.
#[test]
fn restricted_formats() {
    for settings in [usual(), restricted()] {
        for format in [b"03", b"05", b"34", b"35", b"48"] {
            assert_eq!(of_the_paper().with(FORMAT, format).told(settings), (69, 91, 5));
        }
    }
}

/// A key field begins at its letter. Two key blocks of 17 characters stand at 9 and 26.
#[test]
fn key_blocks() {
    let pin_key = |key: &[u8]| with_key_blocks().with(PIN_KEY, key).told(usual());
    assert_eq!(pin_key(b"S2001672TB00N0003"), (26, 9, 2));
    assert_eq!(pin_key(b"S1001572TB00N0003"), (26, 9, 2));
    assert_eq!(pin_key(b"S1001672TB00N\x7F003"), (15, 9, 2));
    assert_eq!(pin_key(b"S10016V1TB00N0003"), (29, 9, 2));
    assert_eq!(pin_key(b"S1001672TB00N0010"), (15, 9, 2));
    let pvk = |key: &[u8]| with_key_blocks().with(PVK, key).told(usual());
    assert_eq!(pvk(&hex_key(b'0')), (26, 26, 3));
    assert_eq!(pvk(b"S00513V1TN00N0003"), (26, 26, 3));
    assert_eq!(pvk(b"S00016V1TN00N0\x190"), (15, 26, 3));
    assert_eq!(pvk(b"S00016V2TN00N0003"), (29, 26, 3));
    assert_eq!(pvk(b"S00016V1TN00N000A"), (15, 26, 3));
    // the longest PIN key moves all that follows
    let longest = [b"S1051272TB00N0003".to_vec(), vec![b'~'; 496]].concat();
    let command = with_key_blocks().with(PIN_KEY, &longest);
    assert_eq!(command.clone().with(PVK, b"X").told(usual()), (26, 9 + 513, 3));
    assert_eq!(command.with(FORMAT, b"99").told(usual()), (23, 9 + 513 + 17 + 16, 5));
}

/// A command that ends too early misses the field in which it ends, or the one that would follow.
#[test]
fn cut_commands() {
    let command = of_the_paper().bytes();
    assert_eq!(command.len(), END as usize);
    for length in 6..END {
        let (place, field) = *FIELDS.iter().rfind(|(place, _)| *place <= length).expect("a field");
        let cut = &command[..length as usize];
        assert_eq!(ask(usual(), cut, &mut [0; 8]), at(place, field, 15, 0));
        let (reply, _) = answered(usual(), [true, true], cut, &bytes(P2));
        assert_eq!(reply, at(place, field, 15, 8));
    }
}

/// Places are counted with the header, whatever its length.
#[test]
fn headers() {
    for header in [0, 1, 4, 15, 16] {
        let with = |field, text: &[u8]| {
            of_the_paper().with(HEADER, &[b'h'; 16][..header]).with(field, text).told(usual())
        };
        let header = header as u32;
        assert_eq!(with(KEY_TYPE, b"fff"), (15, header + 2, 1));
        assert_eq!(with(PIN_KEY, b"u"), (26, header + 5, 2));
        assert_eq!(with(TABLE_FIELD, b"A123456789012345"), (25, header + 103, 8));
        assert_eq!(with(OPTIONS, b";0"), (3, header + 131, 10));
        assert_eq!(with(OPTIONS, b"x"), (15, header + 131, 0));
    }
}

/// "Leftovers point at the first one" and "have field number 0".
#[test]
fn leftovers_without_a_trailer() {
    assert_eq!(told(OPTIONS, b"a"), (15, END, 0));
    assert_eq!(told(OPTIONS, b"\x00\x19abc"), (15, END, 0));
    assert_eq!(told(OPTIONS, b"%09x\x19"), (15, END + 3, 0));
    assert_eq!(told(OPTIONS, b"%09%09"), (15, END + 3, 0));
    assert_eq!(told(OPTIONS, b"%09;00"), (15, END + 3, 0));
    assert_eq!(told(OPTIONS, b";0004"), (15, END + 3, 0));
    assert_eq!(told(OPTIONS, b";00;00"), (15, END + 3, 0));
    assert_eq!(told(OPTIONS, b";010412345"), (15, END + 9, 0));
    assert_eq!(told(OPTIONS, &vec![b'0'; 4096 - 135]), (15, END, 0));
    // a character too many is left over behind its field, not wrong in it
    assert_eq!(told(VALIDATION, b"0123456789ANN"), (15, END, 0));
}

/// "bytes past a full trailer too": the first of them is the thirty-third character, whatever it
/// is. With fewer characters the trailer goes to the command's end.
#[test]
fn leftovers_behind_a_full_trailer() {
    assert_eq!(told(OPTIONS, &trailer(32, None)).0, 0);
    assert_eq!(told(OPTIONS, &trailer(33, None)), (15, END + 33, 0));
    assert_eq!(told(OPTIONS, &trailer(34, None)), (15, END + 33, 0));
    assert_eq!(told(OPTIONS, &trailer(33, Some(33))), (15, END + 33, 0));
    assert_eq!(told(OPTIONS, &trailer(40, Some(40))), (15, END + 33, 0));
    assert_eq!(told(OPTIONS, &trailer(4096 - 136, None)), (15, END + 33, 0));
    let behind = [&b";00%09"[..], &trailer(33, None)].concat();
    assert_eq!(told(OPTIONS, &behind), (15, END + 6 + 33, 0));
}

/// A bad character among a trailer's first 32 is the trailer's fault, also where more follows.
#[test]
fn bad_characters_in_a_trailer() {
    for length in [1, 2, 31, 32, 33, 34, 100] {
        for bad in [1, 2, 31, 32] {
            if bad <= length {
                assert_eq!(told(OPTIONS, &trailer(length, Some(bad))), (15, END, 12));
            }
        }
    }
}

/// The ids of the keys, at 9 and at 26. Key blocks of 17 characters make the command 32 shorter, so
/// that the options stand at 103.
fn ids(pin_key: u8, pvk: u8, options: &[u8]) -> Command {
    let pin_key = format!("S1001672TB00N000{pin_key}");
    let pvk = format!("S00016V1TN00N000{pvk}");
    let command = with_key_blocks().with(PIN_KEY, pin_key.as_bytes());
    command.with(PVK, pvk.as_bytes()).with(OPTIONS, options)
}

/// "For disagreeing LMK ids, point at the last id that is present": at the field that holds it.
#[test]
fn disagreeing_ids() {
    let told = |pin_key, pvk, options: &[u8]| ids(pin_key, pvk, options).told(usual());
    assert_eq!(told(3, 3, b"%03").0, 0);
    assert_eq!(told(3, 4, b""), (15, 26, 3));
    assert_eq!(told(3, 4, b";00\x19end"), (15, 26, 3));
    assert_eq!(told(3, 3, b"%04"), (15, 103, 11));
    assert_eq!(told(3, 4, b"%03"), (15, 103, 11));
    assert_eq!(told(3, 4, b"%04"), (15, 103, 11));
    assert_eq!(told(3, 4, b"%05"), (15, 103, 11));
    assert_eq!(told(3, 4, b";00%05\x19end"), (15, 106, 11));
    // hex keys have none: one id alone agrees
    assert_eq!(of_the_paper().with(OPTIONS, b"%05").told(usual()).0, 0);
}

/// The ids are judged "at the end": behind every field, and behind what is left over.
#[test]
fn other_faults_beside_disagreeing_ids() {
    let told = |options: &[u8]| ids(3, 4, options).told(usual());
    assert_eq!(told(b"x"), (15, 103, 0));
    assert_eq!(told(b"%05x"), (15, 106, 0));
    assert_eq!(told(b"%0A"), (15, 103, 11));
    assert_eq!(told(b";1"), (3, 103, 10));
    assert_eq!(told(b"%05\x19\x00"), (15, 106, 12));
    assert_eq!(told(&trailer(33, None)), (15, 103 + 33, 0));
    assert_eq!(told(&trailer(32, None)), (15, 26, 3));
    assert_eq!(ids(3, 4, b"").with(FORMAT, b"02").told(usual()), (23, 59, 5));
}

/// "For slices that are not 8 bytes, the position is the command's length", and the field is 0. An
/// asking call is handed none.
#[test]
fn slices() {
    let long_header = of_the_paper().with(HEADER, &[b'h'; 16]).with(OPTIONS, b";00%09\x19end");
    for (command, header, length) in [(of_the_paper(), 4, 135), (long_header, 16, 157)] {
        let settings = Settings { header, ..usual() };
        let command = command.bytes();
        assert_eq!(ask(settings, &command, &mut [0; 8]), done(8));
        for (block, enciphered) in [("", P9), (P2, ""), ("00", "00"), (P2, "00"), ("00", P9)] {
            let (block, enciphered) = (bytes(block), bytes(enciphered));
            let (reply, _) = answered_with(settings, [false, false], &command, &block, &enciphered);
            assert_eq!(reply, at(length, 0, 15, header as u32 + 4));
        }
    }
    // the fields come first
    let command = ids(3, 4, b"").bytes();
    let (reply, _) = answered_with(usual(), [true, true], &command, &[], &[]);
    assert_eq!(reply, at(26, 3, 15, 8));
}

/// Number 00 and the numbers that are no field's point nowhere.
#[test]
fn numbers_that_point_nowhere() {
    let weak = b";010534567";
    let command = of_the_paper().with(CHECK, b"06").with(OPTIONS, weak).bytes();
    let reply = |parities, block: &str| answered(usual(), parities, &command, &bytes(block)).0;
    assert_eq!(reply([false, false], P2), at(0, 0, 10, 8));
    assert_eq!(reply([true, false], P2), at(0, 0, 11, 8));
    assert_eq!(reply([true, true], "FF FF FF FF FF FF FF FF"), at(0, 0, 20, 8));
    assert_eq!(reply([true, true], "03 34 16 7F FF ED CB A9"), at(0, 0, 24, 8));
    assert_eq!(reply([true, true], P2), at(0, 0, 81, 8));
    let variable = Settings { variable: true, ..usual() };
    assert_eq!(answered(variable, [true, true], &command, &bytes(P2)).0, at(0, 0, 86, 8));
    assert_eq!(of_the_paper().answered(usual()).0, done(20));
    assert_eq!(of_the_paper().with(CODE, b"BJ").told(usual()), (68, 0, 0));
}

#[test]
fn frames_and_outputs_point_nowhere() {
    let (command, block, enciphered) = (of_the_paper().bytes(), bytes(P2), bytes(P9));
    let reply = |command: &[u8], out: &mut [u8]| {
        answer(usual(), true, true, command, &block, &enciphered, out)
    };
    assert_eq!(reply(&command, &mut [0; 64]), refused(901));
    assert_eq!(reply(&command[..5], &mut [0; 65]), refused(902));
    assert_eq!(reply(&[b'0'; 4097], &mut [0; 65]), refused(902));
    assert_eq!(ask(usual(), &command, &mut [0; 7]), refused(901));
    assert_eq!(ask(usual(), b"\x7FDR1BK", &mut [0; 8]), refused(902));
    assert_eq!(ask(Settings { header: 17, ..usual() }, &command, &mut [0; 8]), refused(902));
}
