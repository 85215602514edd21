//! DA and EA: runs worked by hand from the paper's figures, and the refusals of the fields that
//! BK does not have. Each run is played with both codes.

mod common;

use common::command::{answered, answered_with, Command, P2, P9};
use common::verification::*;
use common::{
    at, bytes, done, refused, restricted, unrestricted, BLOCKS, CLEAN_03, RUBBISH_03, SHORT_03,
    UNTOUCHED,
};
use reference::{answer, ask, usual, Settings};

fn variable() -> Settings {
    Settings { variable: true, ..usual() }
}

/// The number that both commands answer with P2 and P9, after some change.
fn number_of_both(settings: Settings, change: impl Fn(Command) -> Command) -> u32 {
    let [terminal, zone] = both().map(|command| change(command).answered(settings).0.number);
    assert_eq!(terminal, zone);
    terminal
}

/// 00 writes header, response code, 00 and the trailer with its mark; no offset.
#[test]
fn a_pin_that_verifies() {
    for (code, response_code) in CODES {
        let short = [b"HDR1", response_code, b"00"].concat();
        let (reply, response) = of_the_paper(code).answered(usual());
        assert_eq!((reply, &response), (done(8), &short));
        for trailer in [&b"\x19"[..], b"\x19end", b"\x19;01041234%10"] {
            let (reply, response) = of_the_paper(code).with(OPTIONS, trailer).answered(usual());
            assert_eq!(reply, done(8 + trailer.len() as u32));
            assert_eq!(response, [&short, trailer].concat());
        }
    }
}

/// "a verdict 01 writes a short response without a trailer".
#[test]
fn a_pin_that_does_not_verify() {
    for (code, response_code) in CODES {
        for options in [&b""[..], b"\x19end", b"%09\x19end"] {
            let command = of_the_paper(code).with(OFFSET, b"9248FFFFFFFF").with(OPTIONS, options);
            let (reply, response) = command.answered(usual());
            assert_eq!(reply, at(0, 0, 1, 8));
            assert_eq!(response, [b"HDR1", response_code, b"01"].concat());
        }
    }
}

/// P12, whatever the offset says: "An asking call stops here."
#[test]
fn asking_writes_the_validation_block() {
    for command in both() {
        for offset in [&b"9247FFFFFFFF"[..], b"9248FFFFFFFF", b"123456789012"] {
            let mut out = [UNTOUCHED; 9];
            let command = command.clone().with(OFFSET, offset).bytes();
            assert_eq!(ask(usual(), &command, &mut out), done(8));
            assert_eq!(out[..8], bytes("01 23 45 67 89 A2 34 56"));
            assert_eq!(out[8], UNTOUCHED);
        }
    }
}

/// "The verdict is 00 exactly when the offset is the one defined above, otherwise 01."
#[test]
fn one_offset_in_ten_thousand_verifies() {
    let command = of_the_paper(b"DA");
    for digits in 0..10_000 {
        let offset = format!("{digits:04}FFFFFFFF").into_bytes();
        let (reply, _) = command.clone().with(OFFSET, &offset).answered(usual());
        assert_eq!(reply.number, u32::from(digits != 9247));
    }
}

/// "m over n or an offset without exactly m digits is 81". The PIN has five digits.
#[test]
fn check_lengths_and_counts_of_digits() {
    let number = |check: &[u8], offset: &[u8]| {
        number_of_both(usual(), |it| it.with(CHECK, check).with(OFFSET, offset))
    };
    assert_eq!(number(b"05", b"49247FFFFFFF"), 0);
    assert_eq!(number(b"06", b"449247FFFFFF"), 81);
    assert_eq!(number(b"12", b"123456789012"), 81);
    assert_eq!(number(b"05", b"9247FFFFFFFF"), 81);
    assert_eq!(number(b"04", b"49247FFFFFFF"), 81);
    assert_eq!(number(b"04", b"924700000000"), 81);
    for check in [&b"03"[..], b"13", b"00", b"4 ", b"0A"] {
        assert_eq!(number(check, b"9247FFFFFFFF"), 15);
    }
}

/// Variable length: m is 5, the PIN's length, whatever check length from 04 to 12 stands there.
#[test]
fn variable_length() {
    let number = |check: &[u8], offset: &[u8]| {
        number_of_both(variable(), |it| it.with(CHECK, check).with(OFFSET, offset))
    };
    for check in [&b"04"[..], b"05", b"06", b"12"] {
        assert_eq!(number(check, b"49247FFFFFFF"), 0);
        assert_eq!(number(check, b"59247FFFFFFF"), 1);
        assert_eq!(number(check, b"9247FFFFFFFF"), 81);
        assert_eq!(number(check, b"449247FFFFFF"), 81);
    }
    assert_eq!(number(b"13", b"49247FFFFFFF"), 15);
}

/// PIN 345678 against P9's first six nibbles 9F3C0A, natural 953200: 4 9 2 4 7 8. PIN
/// 123456789012 against natural 953200710000: 2 7 0 2 5 6 0 7 9 0 1 2.
#[test]
fn longer_pins() {
    let number = |block: &str, check: &[u8], offset: &[u8]| {
        let command = of_the_paper(b"EA").with(FORMAT, b"34").with(CHECK, check);
        let command = command.with(OFFSET, offset).bytes();
        answered(usual(), [true, true], &command, &bytes(block)).0.number
    };
    let six = "26 34 56 78 FF FF FF FF";
    assert_eq!(number(six, b"06", b"492478FFFFFF"), 0);
    assert_eq!(number(six, b"04", b"2478FFFFFFFF"), 0);
    assert_eq!(number(six, b"05", b"92478FFFFFFF"), 0);
    // the first four digits, where the last four belong
    assert_eq!(number(six, b"04", b"4924FFFFFFFF"), 1);
    assert_eq!(number(six, b"06", b"392478FFFFFF"), 1);
    assert_eq!(number(six, b"04", b"492478FFFFFF"), 81);
    assert_eq!(number(six, b"06", b"2478FFFFFFFF"), 81);
    assert_eq!(number(six, b"07", b"4924780FFFFF"), 81);
    let twelve = "2C 12 34 56 78 90 12 FF";
    assert_eq!(number(twelve, b"12", b"270256079012"), 0);
    assert_eq!(number(twelve, b"12", b"270256079013"), 1);
    assert_eq!(number(twelve, b"04", b"9012FFFFFFFF"), 0);
}

/// PIN 34567 in every format: all are read under either setting.
#[test]
fn formats_are_not_restricted() {
    for (format, block) in BLOCKS {
        for settings in [unrestricted(), restricted()] {
            for command in both() {
                let command = command.with(FORMAT, format!("{format:02}").as_bytes()).bytes();
                assert_eq!(ask(settings, &command, &mut [0; 8]), done(8));
                let (reply, _) = answered(settings, [true, true], &command, &bytes(block));
                assert_eq!(reply, done(8), "format {format}");
            }
        }
    }
    for settings in [unrestricted(), restricted()] {
        assert_eq!(number_of_both(settings, |it| it.with(FORMAT, b"41")), 69);
        assert_eq!(number_of_both(settings, |it| it.with(FORMAT, b"02")), 23);
        assert_eq!(number_of_both(settings, |it| it.with(FORMAT, b"0A")), 15);
    }
}

/// There is no key type: each key field goes by its own letter.
#[test]
fn letters_of_the_keys() {
    let double = [b"U".to_vec(), vec![b'F'; 32]].concat();
    let triple = [b"T".to_vec(), vec![b'F'; 48]].concat();
    let pin_keys = [&double[..], &triple, b"S10016P0TB00N0003"];
    let pvks = [&double[..], &triple, b"S00016V1TN00N0003"];
    for command in both() {
        for (pin_key, pvk) in pin_keys.iter().flat_map(|pin_key| pvks.map(|pvk| (pin_key, pvk))) {
            assert_eq!(command.clone().with(PIN_KEY, pin_key).with(PVK, pvk).number(), 0);
        }
        for key in [PIN_KEY, PVK] {
            for letter in [b'X', b'u', b'R', b'0', 0x19] {
                let other = [vec![letter], vec![b'0'; 32]].concat();
                assert_eq!(command.clone().with(key, &other).number(), 26);
            }
            let small = double.to_ascii_lowercase();
            assert_eq!(command.clone().with(key, &small).number(), 26);
            let small = [b"U".to_vec(), vec![b'f'; 32]].concat();
            assert_eq!(command.clone().with(key, &small).number(), 15);
        }
    }
}

/// P0 or 71 in DA, P0 or 72 in EA; T; B, D or N.
#[test]
fn uses_of_the_pin_key() {
    let number = |code: &[u8], key: &[u8]| with_key_blocks(code).with(PIN_KEY, key).number();
    for (code, own, other) in [(b"DA", "71", "72"), (b"EA", "72", "71")] {
        for mode in ["B", "D", "N"] {
            for usage in ["P0", own] {
                let key = format!("S10016{usage}T{mode}00N0003");
                assert_eq!(number(code, key.as_bytes()), 0);
            }
            let key = format!("S10016{other}T{mode}00N0003");
            assert_eq!(number(code, key.as_bytes()), 29);
        }
        for wrong in ["V1TB", "P0AB", "P0TC", "P0TV", "P0TG", "p0TB", "70TB", "73TB"] {
            let key = format!("S10016{wrong}00N0003");
            assert_eq!(number(code, key.as_bytes()), 29);
        }
        // 29 comes before the LMK id
        assert_eq!(number(code, format!("S10016{other}TB00N000A").as_bytes()), 29);
        assert_eq!(number(code, b"S10016P0TB00N000A"), 15);
        assert_eq!(number(code, b"S20016P0TB00N0003"), 26);
        assert_eq!(number(code, b"S10015P0TB00N0003"), 26);
        assert_eq!(number(code, b"S10513P0TB00N0003"), 26);
    }
}

/// V1; T; C, V or N. BK's G is no use here.
#[test]
fn uses_of_the_pvk() {
    for (code, _) in CODES {
        let number = |key: &[u8]| with_key_blocks(code).with(PVK, key).number();
        assert_eq!(number(b"S00016V1TC00N0003"), 0);
        assert_eq!(number(b"S00016V1TV00N0003"), 0);
        assert_eq!(number(b"S00016V1TN00N0003"), 0);
        for wrong in ["V1TG", "V1TB", "V1Tv", "V1AV", "V2TV", "P0TN", "71TN", "72TN"] {
            assert_eq!(number(format!("S00016{wrong}00N0003").as_bytes()), 29);
        }
    }
}

/// The two characters `12`, anything else 15.
#[test]
fn the_maximum_length() {
    for command in both() {
        for maximum in [&b"11"[..], b"13", b"04", b"00", b"1 ", b" 12", b"1", b"", b"1B", b"21"] {
            assert_eq!(command.clone().with(MAXIMUM, maximum).number(), 15);
        }
        // the command ends before it or within it
        for maximum in [&b""[..], b"1"] {
            let fields = command.fields[..MAXIMUM].concat();
            let cut = [&fields[..], maximum].concat();
            let (reply, _) = answered(usual(), [true, true], &cut, &bytes(P2));
            assert_eq!(reply, at(72, 3, 15, 8));
        }
        // it is judged before the fields behind it
        let command = command.with(MAXIMUM, b"11").with(FORMAT, b"02");
        assert_eq!(command.number(), 15);
    }
}

/// "4 to 12 digits, then only F, else 15".
#[test]
fn malformed_offsets() {
    let malformed: [&[u8]; 11] = [
        b"924FFFFFFFFF",
        b"FFFFFFFFFFFF",
        b"F247FFFFFFFF",
        b"9247fFFFFFFF",
        b"9247FFFFFFF0",
        b"9247FFF7FFFF",
        b"9247FFFFFFFA",
        b"9247AFFFFFFF",
        b"9247FFFFFFF ",
        b"9247FFFFFFF",
        b"",
    ];
    for command in both() {
        for offset in malformed {
            assert_eq!(command.clone().with(OFFSET, offset).number(), 15);
        }
        // the fields before it come first, and those behind it are not reached
        let command = command.with(OFFSET, b"924FFFFFFFFF").with(OPTIONS, b"%99");
        assert_eq!(command.clone().with(FORMAT, b"02").number(), 23);
        assert_eq!(command.clone().with(FORMAT, b"48").number(), 69);
        assert_eq!(command.with(TABLE_FIELD, b"012345678901234A").number(), 25);
    }
}

/// What the fields shared with BK refuse.
#[test]
fn shared_fields() {
    for command in both() {
        let number = |field, text: &[u8]| command.clone().with(field, text).number();
        assert_eq!(number(PIN_BLOCK, b"00000000ABCDEF00"), 0);
        assert_eq!(number(PIN_BLOCK, b"00000000abCDEF00"), 15);
        assert_eq!(number(ACCOUNT_FIELD, b"40000012345A"), 15);
        assert_eq!(number(TABLE_FIELD, b"012345678901234A"), 25);
        assert_eq!(number(VALIDATION, b"0123456789AB"), 15);
        assert_eq!(number(VALIDATION, b"P0123456789ABCDEF"), 0);
        assert_eq!(number(OPTIONS, b"%09\x19end"), 0);
        assert_eq!(number(OPTIONS, b"%10"), 15);
        assert_eq!(number(OPTIONS, b"\x19a\x7F"), 15);
        assert_eq!(number(OPTIONS, &[&b"\x19"[..], &[b'~'; 32]].concat()), 0);
        assert_eq!(number(OPTIONS, &[&b"\x19"[..], &[b'~'; 33]].concat()), 15);
    }
}

/// A weak list is left over here, as anything else that is no field 11 or 12.
#[test]
fn leftovers() {
    for command in both() {
        for options in [&b";00"[..], b";01041234", b";", b"F", b"0", b"%03%03", b"\x00", b"%03;00"]
        {
            assert_eq!(command.clone().with(OPTIONS, options).number(), 15);
        }
    }
}

/// The ids of both keys and of field 11, as far as they are present.
#[test]
fn lmk_ids() {
    let triple = [b"T".to_vec(), vec![b'0'; 48]].concat();
    for (code, _) in CODES {
        let option = |text: &[u8]| with_key_blocks(code).with(OPTIONS, text);
        assert_eq!(option(b"").number(), 0);
        assert_eq!(option(b"%03").number(), 0);
        assert_eq!(option(b"%04").number(), 15);
        assert_eq!(option(b"").with(PVK, b"S00016V1TV00N0004").number(), 15);
        assert_eq!(option(b"%03").with(PVK, b"S00016V1TV00N0004").number(), 15);
        assert_eq!(option(b"%04").with(PVK, b"S00016V1TV00N0004").number(), 15);
        // a hex key has no id
        for hex in [PIN_KEY, PVK] {
            assert_eq!(option(b"").with(hex, &triple).number(), 0);
            assert_eq!(option(b"%03").with(hex, &triple).number(), 0);
            assert_eq!(option(b"%04").with(hex, &triple).number(), 15);
        }
    }
}

/// Cut anywhere before its last character, the command is 902 or 15.
#[test]
fn cut_commands() {
    for (code, response_code) in CODES {
        let refusal = [b"HDR1", response_code, b"15"].concat();
        for command in [of_the_paper(code), with_key_blocks(code)].map(|it| it.bytes()) {
            for length in 0..command.len() {
                let cut = &command[..length];
                let (reply, response) = answered(usual(), [true, true], cut, &bytes(P2));
                if length < 6 {
                    assert_eq!(reply, refused(902));
                } else {
                    assert_eq!((reply.number, &response), (15, &refusal));
                }
            }
        }
    }
}

/// 901 before 902; the room is BK's, though the longest response is shorter by an offset.
#[test]
fn output_and_frame_come_first() {
    let (block, enciphered) = (bytes(P2), bytes(P9));
    for command in both() {
        let reply = |header, out: &mut [u8]| {
            let settings = Settings { header, ..usual() };
            answer(settings, true, true, &command.bytes(), &block, &enciphered, out)
        };
        assert_eq!(reply(17, &mut [0; 64]), refused(901));
        assert_eq!(reply(4, &mut [0; 64]), refused(901));
        assert_eq!(reply(17, &mut [0; 65]), refused(902));
        assert_eq!(reply(4, &mut [0; 65]), done(8));
        assert_eq!(ask(usual(), &command.bytes(), &mut [0; 7]), refused(901));
        let header = command.clone().with(HEADER, b"HDR\x1F");
        assert_eq!(header.answered(usual()).0, refused(902));
    }
}

#[test]
fn the_longest_response() {
    for (code, response_code) in CODES {
        let trailer = [vec![0x19], vec![b'z'; 32]].concat();
        let command = of_the_paper(code).with(HEADER, &[b'h'; 16]).with(OPTIONS, &trailer);
        let (reply, response) = command.answered(Settings { header: 16, ..usual() });
        assert_eq!(reply, done(53));
        assert_eq!(response, [&[b'h'; 16], response_code, b"00", &trailer].concat());
    }
}

/// "68 no longer meets these codes", but still every other.
#[test]
fn other_codes() {
    for (code, response_code) in
        [(b"DB", b"DC"), (b"DC", b"DD"), (b"EC", b"ED"), (b"da", b"db"), (b"AD", b"AE")]
    {
        let (reply, response) = of_the_paper(code).answered(usual());
        assert_eq!(reply, at(0, 0, 68, 8));
        assert_eq!(response, [b"HDR1", &response_code[..], b"68"].concat());
    }
}

/// A key letter is no key type, and a key type no key letter.
#[test]
fn fields_under_another_code() {
    let (reply, response) = of_the_paper(b"DA").with(CODE, b"BK").answered(usual());
    assert_eq!((reply.number, &response[..]), (15, &b"HDR1BL15"[..]));
    for key_type in [b"001", b"002", b"FFF"] {
        let fields = of_the_paper(b"DA").fields;
        let key = [key_type, &fields[PIN_KEY][..]].concat();
        assert_eq!(of_the_paper(b"DA").with(PIN_KEY, &key).number(), 26);
    }
}

/// "two slices that are not 8 bytes long (15), 10, 11, the block (20 or 24), 81", then 01.
#[test]
fn the_answering_calls_own_judgements() {
    for (code, response_code) in CODES {
        let command = |check: &[u8]| {
            of_the_paper(code).with(CHECK, check).with(OFFSET, b"0000FFFFFFFF").bytes()
        };
        let number = |check, parities, block: &str, enciphered: &str| {
            let (block, enciphered) = (bytes(block), bytes(enciphered));
            let (reply, response) =
                answered_with(usual(), parities, &command(check), &block, &enciphered);
            let digits = format!("{:02}", reply.number);
            assert_eq!(response, [b"HDR1", response_code, digits.as_bytes()].concat());
            reply.number
        };
        let rubbish = "FF FF FF FF FF FF FF FF";
        for short in ["", "05 34 16 7F FF ED CB", "05 34 16 7F FF ED CB A9 00"] {
            assert_eq!(number(b"06", [false, false], short, P9), 15);
            assert_eq!(number(b"06", [false, false], rubbish, short), 15);
        }
        assert_eq!(number(b"06", [false, false], rubbish, P9), 10);
        assert_eq!(number(b"06", [true, false], rubbish, P9), 11);
        assert_eq!(number(b"06", [true, true], rubbish, P9), 20);
        assert_eq!(number(b"06", [true, true], "03 34 16 7F FF ED CB A9", P9), 24);
        assert_eq!(number(b"06", [true, true], P2, P9), 81);
        assert_eq!(number(b"05", [true, true], P2, P9), 81);
        assert_eq!(number(b"04", [true, true], P2, P9), 1);
    }
}

/// PIN 1234 against P9's natural 9532: 2 7 0 2. Rubbish behind the first F of its block in format
/// 03 is 20, under either setting: 10 and 11 come before it, 81 and the verdict behind it.
#[test]
fn blocks_of_format_03() {
    let good = [true, true];
    for (code, response_code) in CODES {
        let assert_answers = |number: &[u8], parities, check: &[u8], offset: &[u8], block: &str| {
            let command = of_the_paper(code).with(FORMAT, b"03").with(CHECK, check);
            let command = command.with(OFFSET, offset).bytes();
            for settings in [unrestricted(), restricted()] {
                let (reply, response) = answered(settings, parities, &command, &bytes(block));
                assert_eq!(response, [b"HDR1", response_code, number].concat());
                assert_eq!(format!("{:02}", reply.number).as_bytes(), number);
            }
        };
        for (number, check, offset) in [
            (b"00", b"04", b"2702FFFFFFFF"),
            (b"01", b"04", b"2703FFFFFFFF"),
            (b"81", b"04", b"27020FFFFFFF"),
            (b"81", b"05", b"27020FFFFFFF"),
        ] {
            assert_answers(number, good, check, offset, CLEAN_03);
            assert_answers(b"20", good, check, offset, RUBBISH_03);
            assert_answers(b"24", good, check, offset, SHORT_03);
            assert_answers(b"11", [true, false], check, offset, RUBBISH_03);
            assert_answers(b"10", [false, false], check, offset, RUBBISH_03);
        }
    }
}

/// PIN 45678 against natural 06431 has the differences of P9 over the last four digits, as P10
/// says: the answers are alike, whichever of the two they are.
#[test]
fn equal_differences_answer_alike() {
    let enciphered = bytes("06 43 10 00 00 00 00 00");
    for (code, _) in CODES {
        for (offset, number) in [(b"9247FFFFFFFF", 0), (b"9248FFFFFFFF", 1)] {
            let command = of_the_paper(code).with(FORMAT, b"34").with(OFFSET, offset).bytes();
            let good = [true, true];
            let first = answered(usual(), good, &command, &bytes("25 34 56 7F FF FF FF FF"));
            assert_eq!(first.0.number, number);
            let block = bytes("25 45 67 8F FF FF FF FF");
            assert_eq!(answered_with(usual(), good, &command, &block, &enciphered), first);
        }
    }
}
