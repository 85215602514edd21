//! Request §4: where the refusals of DA and EA point, worked by hand. Each is a number, a place
//! and a field, and the same for both.

mod common;

use common::command::{answered, answered_with, Command, P2, P9};
use common::verification::*;
use common::{at, bytes, done, refused};
use reference::{answer, ask, usual, Settings};

/// Where the fields begin, with their numbers: a header of 4 and a code of 2, then 33, 33, 2, 16,
/// 2, 2, 12, 16, 12 and 12 characters.
const FIELDS: [(u32, u32); 10] =
    [(6, 1), (39, 2), (72, 3), (74, 4), (90, 5), (92, 6), (94, 7), (106, 8), (122, 9), (134, 10)];
const END: u32 = 146;

/// What both commands tell after some change.
fn told_by_both(change: impl Fn(Command) -> Command) -> (u32, u32, u32) {
    let [terminal, zone] = both().map(|command| change(command).told(usual()));
    assert_eq!(terminal, zone);
    terminal
}

fn told(field: usize, text: &[u8]) -> (u32, u32, u32) {
    told_by_both(|it| it.with(field, text))
}

fn hex_key(last: u8) -> Vec<u8> {
    [b"U".to_vec(), vec![b'0'; 31], vec![last]].concat()
}

/// "where the field that failed begins, and which field number": as these commands' own table
/// counts, without a key type and with the maximum PIN length behind the keys.
#[test]
fn each_field() {
    assert_eq!(told(PIN_KEY, &hex_key(b'g')), (15, 6, 1));
    assert_eq!(told(PIN_KEY, b"001"), (26, 6, 1));
    assert_eq!(told(PVK, &hex_key(b'f')), (15, 39, 2));
    assert_eq!(told(PVK, b"X"), (26, 39, 2));
    assert_eq!(told(MAXIMUM, b"11"), (15, 72, 3));
    assert_eq!(told(MAXIMUM, b"1B"), (15, 72, 3));
    assert_eq!(told(PIN_BLOCK, b"000000000000000a"), (15, 74, 4));
    assert_eq!(told(FORMAT, b"0A"), (15, 90, 5));
    assert_eq!(told(FORMAT, b"02"), (23, 90, 5));
    assert_eq!(told(FORMAT, b"42"), (69, 90, 5));
    assert_eq!(told(CHECK, b"03"), (15, 92, 6));
    assert_eq!(told(ACCOUNT_FIELD, b"A00000123456"), (15, 94, 7));
    assert_eq!(told(TABLE_FIELD, b"012345678901234A"), (25, 106, 8));
    assert_eq!(told(VALIDATION, b"N123456789AN"), (15, 122, 9));
    assert_eq!(told(OFFSET, b"924FFFFFFFFF"), (15, 134, 10));
    assert_eq!(told(OFFSET, b"9247FFFFFFFf"), (15, 134, 10));
    assert_eq!(told(OPTIONS, b"%0A"), (15, END, 11));
    assert_eq!(told(OPTIONS, b"%"), (15, END, 11));
    assert_eq!(told(OPTIONS, b"\x19end\x1F"), (15, END, 12));
    assert_eq!(told(OPTIONS, b"%09\x19\x80"), (15, END + 3, 12));
}

/// A key field begins at its letter; a PIN key that only the other command permits is this one's
/// fault in field 1.
#[test]
fn key_blocks() {
    let pvk = |key: &[u8]| told_by_both(|it| it.with(PIN_KEY, b"S10016P0TB00N0003").with(PVK, key));
    assert_eq!(pvk(b"S00016V1TG00N0003"), (29, 23, 2));
    assert_eq!(pvk(b"S00015V1TV00N0003"), (26, 23, 2));
    assert_eq!(pvk(b"S00016V1TV00N00A3"), (15, 23, 2));
    assert_eq!(pvk(b"S00016V1TV00N\x00003"), (15, 23, 2));
    for (code, other) in [(b"DA", b"72"), (b"EA", b"71")] {
        let key = [b"S10016", &other[..], b"TB00N0003"].concat();
        assert_eq!(of_the_paper(code).with(PIN_KEY, &key).told(usual()), (29, 6, 1));
    }
}

/// A command that ends too early misses the field in which it ends, or the one that would follow.
#[test]
fn cut_commands() {
    for command in both().map(|command| command.bytes()) {
        assert_eq!(command.len(), END as usize);
        for length in 6..END {
            let (place, field) =
                *FIELDS.iter().rfind(|(place, _)| *place <= length).expect("a field");
            let cut = &command[..length as usize];
            assert_eq!(ask(usual(), cut, &mut [0; 8]), at(place, field, 15, 0));
            let (reply, _) = answered(usual(), [true, true], cut, &bytes(P2));
            assert_eq!(reply, at(place, field, 15, 8));
        }
    }
}

/// Places are counted with the header, whatever its length.
#[test]
fn headers() {
    for header in [0, 16] {
        let told = |field, text: &[u8]| {
            told_by_both(|it| it.with(HEADER, &[b'h'; 16][..header]).with(field, text))
        };
        let header = header as u32;
        assert_eq!(told(PIN_KEY, b"0"), (26, header + 2, 1));
        assert_eq!(told(MAXIMUM, b"21"), (15, header + 68, 3));
        assert_eq!(told(OFFSET, b"FFFFFFFFFFFF"), (15, header + 130, 10));
        assert_eq!(told(OPTIONS, b"x"), (15, header + 142, 0));
    }
}

/// "Leftovers (bytes past a full trailer too) point at the first one." There is no weak list here:
/// its mark is left over.
#[test]
fn leftovers() {
    assert_eq!(told(OPTIONS, b";00"), (15, END, 0));
    assert_eq!(told(OPTIONS, b"F"), (15, END, 0));
    assert_eq!(told(OPTIONS, b"%09;01041234"), (15, END + 3, 0));
    assert_eq!(told(OPTIONS, b"%09%09\x19"), (15, END + 3, 0));
    let trailer = |length| [vec![0x19], vec![b' '; length]].concat();
    assert_eq!(told(OPTIONS, &trailer(32)).0, 0);
    assert_eq!(told(OPTIONS, &trailer(33)), (15, END + 33, 0));
    assert_eq!(told(OPTIONS, &trailer(300)), (15, END + 33, 0));
    let behind = [&b"%09"[..], &trailer(32), b"\x19"].concat();
    assert_eq!(told(OPTIONS, &behind), (15, END + 36, 0));
    let bad = [b"\x19\x18", &trailer(33)[1..]].concat();
    assert_eq!(told(OPTIONS, &bad), (15, END, 12));
}

/// What each of the three places holds: an id, or none. A key without one is a hex key.
fn ids(code: &[u8], [pin_key, pvk, own]: [Option<u8>; 3], behind: &[u8]) -> Command {
    let key = |front: &str, id: Option<u8>| match id {
        Some(id) => format!("{front}00N000{id}").into_bytes(),
        None => hex_key(b'0'),
    };
    let own = own.map(|own| format!("%0{own}").into_bytes()).unwrap_or_default();
    of_the_paper(code)
        .with(PIN_KEY, &key("S10016P0TB", pin_key))
        .with(PVK, &key("S00016V1TV", pvk))
        .with(OPTIONS, &[&own[..], behind].concat())
}

/// "For disagreeing LMK ids, point at the last id that is present": at the field that holds it,
/// wherever the one stands that it disagrees with. A PVK begins at 23 behind a key block and at 39
/// behind a hex key; two key blocks make the command 32 characters shorter, one makes it 16.
#[test]
fn disagreeing_ids() {
    let (three, four, five, none) = (Some(3), Some(4), Some(5), None);
    for (code, _) in CODES {
        for behind in [&b""[..], b"\x19", b"\x19%04"] {
            let told = |held| ids(code, held, behind).told(usual());
            assert_eq!(told([three, four, none]), (15, 23, 2));
            assert_eq!(told([three, three, four]), (15, END - 32, 11));
            assert_eq!(told([three, four, three]), (15, END - 32, 11));
            assert_eq!(told([three, four, four]), (15, END - 32, 11));
            assert_eq!(told([three, four, five]), (15, END - 32, 11));
            assert_eq!(told([three, none, four]), (15, END - 16, 11));
            assert_eq!(told([none, three, four]), (15, END - 16, 11));
            for agreeing in [[three; 3], [none; 3], [none, none, four], [none, four, none]] {
                assert_eq!(told(agreeing), (0, 0, 0));
            }
            for agreeing in [[four, none, none], [four, four, none], [none, four, four]] {
                assert_eq!(told(agreeing), (0, 0, 0));
            }
        }
    }
}

/// The ids are judged "at the end": the leftover decides, and so does every field.
#[test]
fn other_faults_beside_disagreeing_ids() {
    for (code, _) in CODES {
        let told = |own, behind: &[u8]| ids(code, [Some(3), Some(4), own], behind).told(usual());
        assert_eq!(told(None, b"x"), (15, END - 32, 0));
        assert_eq!(told(Some(5), b"x"), (15, END - 29, 0));
        assert_eq!(told(Some(5), &[b"\x19", &[b'z'; 33][..]].concat()), (15, END - 29 + 33, 0));
        assert_eq!(told(Some(5), b"\x19\x19"), (15, END - 29, 12));
        assert_eq!(told(None, b"%99"), (15, END - 32, 11));
        let command = ids(code, [Some(3), Some(4), None], b"");
        assert_eq!(command.with(OFFSET, b"924FFFFFFFFF").told(usual()), (15, 102, 10));
    }
}

/// "For slices that are not 8 bytes, the position is the command's length", and the field is 0.
#[test]
fn slices() {
    for (code, _) in CODES {
        for (options, length) in [(&b""[..], END), (b"%09\x19end", END + 7)] {
            let command = of_the_paper(code).with(OPTIONS, options).bytes();
            assert_eq!(ask(usual(), &command, &mut [0; 8]), done(8));
            for (block, enciphered) in [("", P9), (P2, ""), ("00", "00"), (P2, "00")] {
                let (block, enciphered) = (bytes(block), bytes(enciphered));
                let (reply, _) =
                    answered_with(usual(), [false, false], &command, &block, &enciphered);
                assert_eq!(reply, at(length, 0, 15, 8));
            }
        }
    }
}

/// Both verdicts, and the numbers that are no field's.
#[test]
fn numbers_that_point_nowhere() {
    for (code, _) in CODES {
        let reply = |offset: &[u8], parities, block: &str| {
            let command = of_the_paper(code).with(OFFSET, offset).bytes();
            answered(usual(), parities, &command, &bytes(block)).0
        };
        let (right, good) = (b"9247FFFFFFFF", [true, true]);
        assert_eq!(reply(right, good, P2), done(8));
        assert_eq!(reply(b"0247FFFFFFFF", good, P2), at(0, 0, 1, 8));
        assert_eq!(reply(right, [false, true], P2), at(0, 0, 10, 8));
        assert_eq!(reply(right, [true, false], P2), at(0, 0, 11, 8));
        assert_eq!(reply(right, good, "FF FF FF FF FF FF FF FF"), at(0, 0, 20, 8));
        assert_eq!(reply(right, good, "0D 34 16 7F FF ED CB A9"), at(0, 0, 24, 8));
        assert_eq!(reply(b"49247FFFFFFF", good, P2), at(0, 0, 81, 8));
        let (command, block, enciphered) = (of_the_paper(code).bytes(), bytes(P2), bytes(P9));
        let short = answer(usual(), true, true, &command, &block, &enciphered, &mut [0; 64]);
        assert_eq!(short, refused(901));
        assert_eq!(ask(usual(), &command, &mut [0; 7]), refused(901));
        let no_frame = Settings { header: 17, ..usual() };
        assert_eq!(ask(no_frame, &command, &mut [0; 8]), refused(902));
    }
    assert_eq!(of_the_paper(b"DC").told(usual()), (68, 0, 0));
}
