//! The paper's run of a BK command, and every field's refusals.

mod common;

use common::bk::*;
use common::command::{answered, P2, P9};
use common::{
    at, bytes, done, refused, restricted, unrestricted, BLOCKS, CLEAN_03, RUBBISH_03, SHORT_03,
    UNTOUCHED,
};
use reference::{answer, ask, usual, Settings};

/// "answers `HDR1BL009247FFFFFFFF`: header, response code, 00, offset." Format 01 is allowed under
/// either setting, so that request §5 changes nothing here.
#[test]
fn the_run_of_the_paper() {
    for settings in [restricted(), unrestricted()] {
        let (reply, response) = of_the_paper().answered(settings);
        assert_eq!(reply, done(20));
        assert_eq!(response, b"HDR1BL009247FFFFFFFF");
        let mut out = [UNTOUCHED; 9];
        assert_eq!(ask(settings, &of_the_paper().bytes(), &mut out), done(8));
        assert_eq!(out[..8], bytes("01 23 45 67 89 A2 34 56"));
        assert_eq!(out[8], UNTOUCHED);
    }
}

/// "header length 0 to 16 (usual 4); restricted formats, usual No; variable length offset,
/// usual No". Request §5 has changed the second: "the setting's default turns from No to Yes".
#[test]
fn usual_settings() {
    assert_eq!(usual(), Settings { header: 4, restricted: true, variable: false });
}

#[test]
fn a_refusal_writes_header_code_and_number() {
    let (reply, response) =
        of_the_paper().with(CHECK, b"03").with(OPTIONS, b"\x19end").answered(usual());
    assert_eq!(reply, at(93, 6, 15, 8));
    assert_eq!(response, b"HDR1BL15");
}

/// "The response code is the command code with its second byte raised by one (255 becomes 0)".
#[test]
fn other_command_codes() {
    let (reply, response) = of_the_paper().with(CODE, b"EE").answered(usual());
    assert_eq!((reply.number, &response[..]), (68, &b"HDR1EF68"[..]));
    let (reply, response) = of_the_paper().with(CODE, b"B\xFF").answered(usual());
    assert_eq!((reply.number, &response[..]), (68, &b"HDR1B\x0068"[..]));
}

#[test]
fn output_and_frame_come_first() {
    let command = of_the_paper().bytes();
    let (block, enciphered) = (bytes(P2), bytes(P9));
    let reply = |header, command: &[u8], out: &mut [u8]| {
        let settings = Settings { header, ..usual() };
        answer(settings, true, true, command, &block, &enciphered, out)
    };
    assert_eq!(reply(17, &command, &mut [0; 64]), refused(901));
    assert_eq!(reply(17, &command, &mut [0; 65]), refused(902));
    assert_eq!(reply(usize::MAX, &command, &mut [0; 65]), refused(902));
    assert_eq!(reply(4, &command[..5], &mut [0; 65]), refused(902));
    assert_eq!(reply(4, b"HDR\x1FBK", &mut [0; 65]), refused(902));
    assert_eq!(reply(4, b"HDR\x7FBK", &mut [0; 65]), refused(902));
    assert_eq!(reply(4, b"HDR1BK", &mut [0; 65]), at(6, 1, 15, 8));
    assert_eq!(reply(4, &[b'A'; 4097], &mut [0; 65]), refused(902));
    assert_eq!(reply(4, &[b'A'; 4096], &mut [0; 65]), at(0, 0, 68, 8));
    assert_eq!(ask(Settings { header: 17, ..usual() }, &command, &mut [0; 7]), refused(901));
    assert_eq!(ask(Settings { header: 17, ..usual() }, &command, &mut [0; 8]), refused(902));
    assert_eq!(reply(0, &command[4..], &mut [0; 65]), done(16));
}

/// Cut anywhere before its last character, the command is 902 or 15.
#[test]
fn cut_commands() {
    let command = of_the_paper().bytes();
    for length in 0..command.len() {
        let (reply, response) = answered(usual(), [true, true], &command[..length], &bytes(P2));
        if length < 6 {
            assert_eq!(reply, refused(902));
        } else {
            assert_eq!((reply.number, &response[..]), (15, &b"HDR1BL15"[..]));
        }
    }
}

#[test]
fn plain_fields() {
    let whole = of_the_paper;
    assert_eq!(whole().number(), 0);
    assert_eq!(whole().with(KEY_TYPE, b"002").number(), 0);
    assert_eq!(whole().with(KEY_TYPE, b"003").number(), 15);
    assert_eq!(whole().with(KEY_TYPE, b"fff").number(), 15);
    assert_eq!(whole().with(KEY_TYPE, b"FFF").number(), 26);
    assert_eq!(whole().with(PIN_BLOCK, b"00000000ABCDEF00").number(), 0);
    assert_eq!(whole().with(PIN_BLOCK, b"00000000abCDEF00").number(), 15);
    assert_eq!(whole().with(FORMAT, b"0A").number(), 15);
    assert_eq!(whole().with(FORMAT, b"02").number(), 23);
    assert_eq!(whole().with(FORMAT, b"41").told(unrestricted()).0, 69);
    assert_eq!(whole().with(CHECK, b"13").number(), 15);
    assert_eq!(whole().with(ACCOUNT_FIELD, b"40000012345A").number(), 15);
    assert_eq!(whole().with(TABLE_FIELD, b"012345678901234A").number(), 25);
    assert_eq!(whole().with(VALIDATION, b"0123456789AB").number(), 15);
    assert_eq!(whole().with(VALIDATION, b"P0123456789ABCDEF").number(), 0);
}

/// Characters missing at the end give 15 before the table's non-digit could give 25.
#[test]
fn a_short_table_is_15() {
    let command = of_the_paper().with(TABLE_FIELD, b"A23").with(VALIDATION, b"");
    assert_eq!(command.number(), 15);
}

#[test]
fn hex_keys() {
    let whole = of_the_paper;
    let triple = [b"T".to_vec(), vec![b'F'; 48]].concat();
    assert_eq!(whole().with(PVK, &triple).number(), 0);
    assert_eq!(whole().with(PIN_KEY, &triple).with(PVK, &triple).number(), 0);
    assert_eq!(whole().with(PIN_KEY, b"S").number(), 26);
    assert_eq!(whole().with(PVK, &triple.to_ascii_lowercase()).number(), 26);
    let lower = [b"T".to_vec(), vec![b'f'; 48]].concat();
    assert_eq!(whole().with(PVK, &lower).number(), 15);
}

/// Letter, version and length (26), the rest (15), use (29), LMK id (15): in this order.
#[test]
fn key_blocks() {
    let number = |key: &[u8]| with_key_blocks().with(PIN_KEY, key).number();
    assert_eq!(with_key_blocks().number(), 0);
    assert_eq!(number(b"S10016P0TD00N0003"), 0);
    assert_eq!(number(b"S1001771TN00N0003~"), 0);
    assert_eq!(number(b"S2001672TB00N0003"), 26);
    assert_eq!(number(b"S1001572TB00N0003"), 26);
    assert_eq!(number(b"S1051372TB00N0003"), 26);
    assert_eq!(number(b"S1 01672TB00N0003"), 26);
    assert_eq!(number(b"S1001672TB00N\x7F0A3"), 15);
    assert_eq!(number(b"S10016V1TB00N000A"), 29);
    assert_eq!(number(b"S1001672AB00N0003"), 29);
    assert_eq!(number(b"S1001672TC00N0003"), 29);
    assert_eq!(number(b"S1001672TB00N0010"), 15);
    let pvk = |key: &[u8]| with_key_blocks().with(PVK, key).number();
    assert_eq!(pvk(b"S00016V1TG00N0003"), 0);
    assert_eq!(pvk(b"S00016V2TG00N0003"), 29);
    assert_eq!(pvk(b"S00016V1TB00N0003"), 29);
    // DA and EA permit V in the place of G
    assert_eq!(pvk(b"S00016V1TV00N0003"), 29);
}

/// The longest key block, and one whose characters end too early: five missing characters and
/// the missing rest are 15.
#[test]
fn key_blocks_at_their_limits() {
    let longest = [b"S1051272TB00N0003".to_vec(), vec![b'~'; 512 - 16]].concat();
    assert_eq!(with_key_blocks().with(PIN_KEY, &longest).number(), 0);
    let head = b"HDR1BKFFF".to_vec();
    let cut = |key: &[u8]| {
        let command = [&head[..], key].concat();
        answered(usual(), [true, true], &command, &bytes(P2)).0.number
    };
    assert_eq!(cut(b""), 15);
    assert_eq!(cut(b"X"), 26);
    assert_eq!(cut(b"S2001"), 15);
    assert_eq!(cut(b"S20016"), 26);
    assert_eq!(cut(b"S10016V1TB00N000"), 15);
    assert_eq!(cut(b"S10016V1TB00N0003"), 29);
}

/// "LMK ids present in fields 2, 3 and 11 must all agree, else 15."
#[test]
fn lmk_ids() {
    let option = |text: &[u8]| with_key_blocks().with(OPTIONS, text);
    assert_eq!(option(b"%03").number(), 0);
    assert_eq!(option(b"%04").number(), 15);
    assert_eq!(option(b"%10").number(), 15);
    assert_eq!(option(b"%0").number(), 15);
    assert_eq!(option(b"%03").with(PVK, b"S00016V1TN00N0004").number(), 15);
    assert_eq!(option(b"").with(PVK, b"S00016V1TN00N0004").number(), 15);
    assert_eq!(option(b"%03").with(PIN_KEY, b"S1001672TB00N0004").number(), 15);
    assert_eq!(of_the_paper().with(OPTIONS, b"%09").number(), 0);
}

/// Field 10 part by part: count 03, length 15, list 03.
#[test]
fn weak_list_form() {
    let number = |text: &[u8]| of_the_paper().with(OPTIONS, text).number();
    assert_eq!(number(b";00"), 0);
    assert_eq!(number(b";00%09"), 0);
    assert_eq!(number(b";"), 3);
    assert_eq!(number(b";0"), 3);
    assert_eq!(number(b";0A"), 3);
    assert_eq!(number(b";01"), 15);
    assert_eq!(number(b";0113"), 15);
    assert_eq!(number(b";01031234"), 15);
    assert_eq!(number(b";010A1234"), 15);
    assert_eq!(number(b";0104123"), 3);
    assert_eq!(number(b";0104123A"), 3);
    assert_eq!(number(b";01041234"), 0);
    assert_eq!(number(b";010412345"), 15);
    assert_eq!(number(b";0004"), 15);
}

/// "A weak PIN of another length than the PIN never matches." The PIN is 34567.
#[test]
fn weak_pins() {
    let number = |text: &[u8]| of_the_paper().with(OPTIONS, text).answered(usual()).0.number;
    assert_eq!(number(b";010534567"), 86);
    assert_eq!(number(b";03051111134567" as &[u8]), 3);
    assert_eq!(number(b";0305111112222234567"), 86);
    assert_eq!(number(b";02051345671111"), 0);
    assert_eq!(number(b";01043456"), 0);
    assert_eq!(number(b";01044567"), 0);
    assert_eq!(number(b";0106345670"), 0);
}

/// The last of 99 entries of each length counts, and one entry fewer than the count is 03.
#[test]
fn the_longest_weak_lists() {
    for length in 4..=12 {
        let entries = [vec![b'1'; 98 * length], b"345670000000"[..length].to_vec()].concat();
        let list = [format!(";99{length:02}").into_bytes(), entries].concat();
        let number = |list: &[u8]| of_the_paper().with(OPTIONS, list).answered(usual()).0.number;
        assert_eq!(number(&list), if length == 5 { 86 } else { 0 });
        assert_eq!(number(&list[..list.len() - 1]), 3);
    }
}

/// "Optional byte 19 hex and a trailer of 0 to 32 printable characters"; it comes back with 00.
#[test]
fn trailers() {
    let whole = of_the_paper;
    for length in [0, 1, 32] {
        let trailer = [vec![0x19], vec![b';'; length]].concat();
        let (reply, response) = whole().with(OPTIONS, &trailer).answered(usual());
        assert_eq!(reply, done(21 + length as u32));
        assert_eq!(response, [&b"HDR1BL009247FFFFFFFF"[..], &trailer].concat());
    }
    let too_long = [vec![0x19], vec![b'~'; 33]].concat();
    assert_eq!(whole().with(OPTIONS, &too_long).number(), 15);
    assert_eq!(whole().with(OPTIONS, b"\x19a\x19").number(), 15);
    assert_eq!(whole().with(OPTIONS, b"\x19a\x7F").number(), 15);
    assert_eq!(whole().with(OPTIONS, b"a").number(), 15);
}

/// The longest response fills all of the 65 bytes.
#[test]
fn the_longest_response() {
    let command = of_the_paper();
    let trailer = [vec![0x19], vec![b'z'; 32]].concat();
    let command = command.with(0, &[b'h'; 16]).with(OPTIONS, &trailer);
    let (reply, response) = command.answered(Settings { header: 16, ..usual() });
    assert_eq!(reply, done(65));
    assert_eq!(&response[..32], b"hhhhhhhhhhhhhhhhBL009247FFFFFFFF");
    assert_eq!(response[32..], trailer);
}

/// "two slices that are not 8 bytes long (15), 10, 11, the block (20 or 24), 81, 86".
#[test]
fn the_answering_calls_own_judgements() {
    let weak = b";010534567";
    let command = of_the_paper().with(CHECK, b"06").with(OPTIONS, weak).bytes();
    let number =
        |parities, block: &str| answered(usual(), parities, &command, &bytes(block)).0.number;
    assert_eq!(number([false, false], "05 34 16 7F FF ED CB"), 15);
    assert_eq!(number([false, false], "FF FF FF FF FF FF FF FF"), 10);
    assert_eq!(number([true, false], "FF FF FF FF FF FF FF FF"), 11);
    assert_eq!(number([true, true], "FF FF FF FF FF FF FF FF"), 20);
    assert_eq!(number([true, true], "03 34 16 7F FF ED CB A9"), 24);
    assert_eq!(number([true, true], P2), 81);
    let variable = Settings { variable: true, ..usual() };
    assert_eq!(answered(variable, [true, true], &command, &bytes(P2)).0.number, 86);
}

/// PIN 1234 against P9's natural 9532: 2 7 0 2. Rubbish behind the first F of its block in format
/// 03 is 20, with a short response: 10 and 11 come before it, 81 and 86 behind it.
#[test]
fn blocks_of_format_03() {
    let weak = b";01041234\x19end";
    let response = |parities, check: &[u8], options: &[u8], block: &str| {
        let command = of_the_paper().with(FORMAT, b"03").with(CHECK, check).with(OPTIONS, options);
        assert_eq!(ask(unrestricted(), &command.bytes(), &mut [0; 8]), done(8));
        let (reply, response) = answered(unrestricted(), parities, &command.bytes(), &bytes(block));
        assert_eq!(format!("{:02}", reply.number).as_bytes(), &response[6..8]);
        String::from_utf8(response).expect("characters")
    };
    let good = [true, true];
    assert_eq!(response(good, b"04", b"", CLEAN_03), "HDR1BL002702FFFFFFFF");
    assert_eq!(response(good, b"04", b"\x19end", CLEAN_03), "HDR1BL002702FFFFFFFF\x19end");
    assert_eq!(response(good, b"04", weak, CLEAN_03), "HDR1BL86");
    assert_eq!(response(good, b"06", weak, CLEAN_03), "HDR1BL81");
    for (check, options) in [(b"04", &b""[..]), (b"04", b"\x19end"), (b"04", weak), (b"06", weak)] {
        assert_eq!(response(good, check, options, RUBBISH_03), "HDR1BL20");
        assert_eq!(response(good, check, options, SHORT_03), "HDR1BL24");
        assert_eq!(response([true, false], check, options, RUBBISH_03), "HDR1BL11");
        assert_eq!(response([false, false], check, options, RUBBISH_03), "HDR1BL10");
    }
}

/// "two slices that are not 8 bytes long (15)": either of them, before 10.
#[test]
fn slices() {
    let command = of_the_paper().bytes();
    let slice = |length| [bytes(P2), bytes(P9)].concat()[..length].to_vec();
    for (block, enciphered) in [(0, 8), (7, 8), (9, 8), (8, 0), (8, 7), (8, 9), (7, 9)] {
        let mut out = [UNTOUCHED; 65];
        let (block, enciphered) = (slice(block), slice(enciphered));
        let reply = answer(usual(), false, false, &command, &block, &enciphered, &mut out);
        assert_eq!(reply, at(135, 0, 15, 8));
        assert_eq!(&out[..8], b"HDR1BL15");
    }
}

/// PIN 34567 in every format. One that is allowed gives the offset of the paper's run; any other is
/// 69 by both calls, at field 5, and no more than that number is written.
fn assert_formats(settings: Settings, allowed: &[u32]) {
    for (format, block) in BLOCKS {
        let command = of_the_paper().with(FORMAT, format!("{format:02}").as_bytes()).bytes();
        let mut out = [UNTOUCHED; 8];
        let asked = ask(settings, &command, &mut out);
        let (reply, response) = answered(settings, [true, true], &command, &bytes(block));
        if allowed.contains(&format) {
            assert_eq!((asked, reply), (done(8), done(20)), "format {format}");
            assert_eq!(response, b"HDR1BL009247FFFFFFFF");
        } else {
            assert_eq!((asked, reply), (at(91, 5, 69, 0), at(91, 5, 69, 8)), "format {format}");
            assert_eq!((out, &response[..]), ([UNTOUCHED; 8], &b"HDR1BL69"[..]));
        }
    }
}

/// "BK allows all six, or restricted only 01 and 47." Request §5 makes restricted the usual.
#[test]
fn restricted_formats() {
    assert_formats(usual(), &[1, 47]);
    assert_formats(restricted(), &[1, 47]);
    assert_formats(unrestricted(), &[1, 3, 5, 34, 35, 47]);
}

/// Variable length: five digits of offset whatever the check length says.
#[test]
fn variable_length() {
    let variable = Settings { variable: true, ..usual() };
    let (reply, response) = of_the_paper().with(CHECK, b"12").answered(variable);
    assert_eq!(reply, done(20));
    assert_eq!(response, b"HDR1BL0049247FFFFFFF");
}
