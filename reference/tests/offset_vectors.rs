//! P9 to P12 of the paper, and the order of judging around offsets, PVVs and verdicts.

mod common;

use common::{
    bytes, digits, done, refused, ACCOUNT, CLEAN_03, NO_FILL, RUBBISH_03, SHORT_03, TABLE,
    UNTOUCHED,
};
use reference::{
    differences, natural_pin, offset, offset_of_digits, offset_verdict, pvv, pvv_input,
    pvv_verdict, validation_block, write_block, Reply, Settings,
};

/// P2's block: PIN 34567 in format 01.
const P2: &str = "05 34 16 7F FF ED CB A9";

/// P9's enciphered block; the paper gives its beginning and leaves the tail open.
const P9: &str = "9F 3C 0A 71 00 00 00 00";

fn variable() -> Settings {
    Settings { variable: true, ..Settings::usual() }
}

fn offset_of_p2(settings: Settings, check: u32) -> (Reply, String) {
    let mut out = [b'.'; 13];
    let (block, enciphered) = (bytes(P2), bytes(P9));
    let reply = offset(settings, 1, check, &block, ACCOUNT, TABLE, &enciphered, &mut out);
    (reply, String::from_utf8(out.to_vec()).expect("characters"))
}

fn verdict_on_p2(settings: Settings, check: u32, presented: &[u8]) -> Reply {
    let (block, enciphered) = (bytes(P2), bytes(P9));
    offset_verdict(settings, 1, check, &block, ACCOUNT, TABLE, &enciphered, presented)
}

/// P9: natural 95320 for every tail; three of them stand here.
#[test]
fn proved_natural_pin() {
    for tail in ["00 00 00 00", "FF FF FF FF", "12 34 56 78"] {
        let mut out = [UNTOUCHED; 12];
        let enciphered = bytes(&format!("9F 3C 0A 71 {tail}"));
        assert_eq!(natural_pin(5, TABLE, &enciphered, &mut out), done(5));
        assert_eq!(out[..5], [9, 5, 3, 2, 0]);
        assert_eq!(out[5..], [UNTOUCHED; 7]);
    }
}

/// P9: m 4 gives 9247, m 5 gives 49247, m 6 gives 81.
#[test]
fn proved_offsets_of_a_block() {
    let usual = Settings::usual();
    assert_eq!(offset_of_p2(usual, 4), (done(12), "9247FFFFFFFF.".to_string()));
    assert_eq!(offset_of_p2(usual, 5), (done(12), "49247FFFFFFF.".to_string()));
    assert_eq!(offset_of_p2(usual, 6), (refused(81), ".".repeat(13)));
}

/// Variable length: m is the PIN's length, "then the check length is judged as a field only".
#[test]
fn variable_length_offsets() {
    for check in [4, 5, 6, 12] {
        assert_eq!(offset_of_p2(variable(), check), (done(12), "49247FFFFFFF.".to_string()));
    }
    for check in [3, 13, 256 + 4] {
        assert_eq!(offset_of_p2(variable(), check), (refused(15), ".".repeat(13)));
    }
}

/// P10: PIN 45678 against natural 06431, m 4.
#[test]
fn proved_offset_of_digits() {
    let mut out = [UNTOUCHED; 12];
    let (pin, natural) = (digits("45678"), digits("06431"));
    assert_eq!(offset_of_digits(Settings::usual(), 4, &pin, &natural, &mut out), done(12));
    assert_eq!(&out, b"9247FFFFFFFF");
}

/// P10's digits: 4-0, 5-6, 6-4, 7-3, 8-1; the covered ones are written.
#[test]
fn differences_are_unreduced() {
    let (pin, natural) = (digits("45678"), digits("06431"));
    let mut out = [UNTOUCHED; 12];
    assert_eq!(differences(Settings::usual(), 4, &pin, &natural, &mut out), done(4));
    assert_eq!(out[..5], [255, 2, 4, 7, UNTOUCHED]);
    assert_eq!(differences(variable(), 4, &pin, &natural, &mut out), done(5));
    assert_eq!(out[..6], [4, 255, 2, 4, 7, UNTOUCHED]);
    assert_eq!(differences(variable(), 4, &digits("0909"), &digits("9090"), &mut out), done(4));
    assert_eq!(out[..4], [-9i8 as u8, 9, -9i8 as u8, 9]);
}

/// P11, in its three cases.
#[test]
fn proved_pvvs() {
    for (enciphered, expected) in [
        ("0A 5F C3 E1 7B 2D 94 88", b"0531"),
        ("AB CD EF AB CD EF 1A B2", b"1201"),
        ("FF FF FF FF FF FF FF FF", b"5555"),
    ] {
        let mut out = [UNTOUCHED; 5];
        assert_eq!(pvv(&bytes(enciphered), &mut out), done(4));
        assert_eq!(&out[..4], expected);
        assert_eq!(out[4], UNTOUCHED);
    }
}

/// P12, and the other form.
#[test]
fn proved_validation_block() {
    let mut out = [UNTOUCHED; 8];
    assert_eq!(validation_block(b"0123456789AN", ACCOUNT, &mut out), done(8));
    assert_eq!(out[..], bytes("01 23 45 67 89 A2 34 56"));
    assert_eq!(validation_block(b"N0123456789A", ACCOUNT, &mut out), done(8));
    assert_eq!(out[..], bytes("23 45 60 12 34 56 78 9A"));
    assert_eq!(validation_block(b"P0123456789ABCDEF", ACCOUNT, &mut out), done(8));
    assert_eq!(out[..], bytes("01 23 45 67 89 AB CD EF"));
}

#[test]
fn malformed_validation_data() {
    let malformed: [&[u8]; 10] = [
        b"",
        b"0123456789AB",
        b"0123456789NN",
        b"0123456789aN",
        b"0123456789A",
        b"0123456789ABN",
        b"P0123456789A",
        b"P0123456789ABCDE",
        b"P0123456789ABCDEN",
        b"00123456789ABCDEF",
    ];
    for validation in malformed {
        let mut out = [UNTOUCHED; 8];
        assert_eq!(validation_block(validation, ACCOUNT, &mut out), refused(15));
        assert_eq!(out, [UNTOUCHED; 8]);
    }
    assert_eq!(validation_block(b"", b"", &mut [0; 7]), refused(901));
}

/// The order for a natural PIN: 901, 15, 25, and its own length last.
#[test]
fn natural_pin_judges_in_order() {
    let mut out = [UNTOUCHED; 12];
    let letters = b"012345678901234A";
    assert_eq!(natural_pin(3, &letters[1..], NO_FILL, &mut out[1..]), refused(901));
    assert_eq!(natural_pin(3, &letters[1..], NO_FILL, &mut out), refused(15));
    assert_eq!(natural_pin(3, letters, &NO_FILL[1..], &mut out), refused(15));
    assert_eq!(natural_pin(3, letters, NO_FILL, &mut out), refused(25));
    assert_eq!(natural_pin(3, TABLE, NO_FILL, &mut out), refused(24));
    assert_eq!(natural_pin(13, TABLE, NO_FILL, &mut out), refused(24));
    assert_eq!(out, [UNTOUCHED; 12]);
}

/// 24 before 20 for the PIN; then 20 before 24 for the natural PIN; then 81.
#[test]
fn digits_are_judged_in_order() {
    let mut out = [UNTOUCHED; 12];
    let mut number = |check, pin: &[u8], natural: &[u8]| {
        let reply = offset_of_digits(Settings::usual(), check, pin, natural, &mut out);
        let mut other = [UNTOUCHED; 12];
        assert_eq!(differences(Settings::usual(), check, pin, natural, &mut other), reply);
        reply.number
    };
    assert_eq!(number(3, &[10; 3], &[10; 2]), 15);
    assert_eq!(number(6, &[10; 3], &[10; 2]), 24);
    assert_eq!(number(6, &[1, 2, 3, 10], &[0; 2]), 20);
    assert_eq!(number(6, &[1; 4], &[10; 2]), 20);
    assert_eq!(number(6, &[1; 4], &[1, 1, 1, 1, 10]), 20);
    assert_eq!(number(6, &[1; 4], &[1; 5]), 24);
    assert_eq!(number(6, &[1; 4], &[1; 4]), 81);
    assert_eq!(out, [UNTOUCHED; 12]);
}

/// 00 exactly for the right offset; 81 for another count of digits; 15 for a malformed one.
#[test]
fn offset_verdicts() {
    let usual = Settings::usual();
    assert_eq!(verdict_on_p2(usual, 4, b"9247FFFFFFFF"), done(0));
    assert_eq!(verdict_on_p2(usual, 5, b"49247FFFFFFF"), done(0));
    assert_eq!(verdict_on_p2(usual, 4, b"4924FFFFFFFF"), refused(1));
    assert_eq!(verdict_on_p2(usual, 4, b"49247FFFFFFF"), refused(81));
    assert_eq!(verdict_on_p2(usual, 6, b"449247FFFFFF"), refused(81));
    assert_eq!(verdict_on_p2(variable(), 12, b"49247FFFFFFF"), done(0));
    assert_eq!(verdict_on_p2(variable(), 4, b"9247FFFFFFFF"), refused(81));
    let malformed: [&[u8]; 6] =
        [b"", b"924FFFFFFFFF", b"9247fFFFFFFF", b"9247FFFFFFF", b"9247FFFFFFF0", b"9247FFFFFFFFF"];
    for presented in malformed {
        assert_eq!(verdict_on_p2(usual, 4, presented), refused(15));
    }
}

/// A malformed offset (15) comes before 23, 69, 25 and the block; 81 comes after them.
#[test]
fn offset_verdict_judges_in_order() {
    let letters = b"A123456789012345";
    let verdict = |format, block: &str, table: &[u8], presented: &[u8]| {
        let block = bytes(block);
        let usual = Settings::usual();
        offset_verdict(usual, format, 4, &block, ACCOUNT, table, NO_FILL, presented).number
    };
    assert_eq!(verdict(99, "FF FF FF FF FF FF FF FF", letters, b"123FFFFFFFFF"), 15);
    assert_eq!(verdict(99, "FF FF FF FF FF FF FF FF", letters, b"12345FFFFFFF"), 23);
    assert_eq!(verdict(48, "FF FF FF FF FF FF FF FF", letters, b"12345FFFFFFF"), 69);
    assert_eq!(verdict(1, "FF FF FF FF FF FF FF FF", letters, b"12345FFFFFFF"), 25);
    assert_eq!(verdict(1, "0F FF FF FF FF FF FF FF", TABLE, b"12345FFFFFFF"), 24);
    assert_eq!(verdict(1, "FF FF FF FF FF FF FF FF", TABLE, b"12345FFFFFFF"), 20);
    assert_eq!(verdict(1, P2, TABLE, b"12345FFFFFFF"), 81);
}

/// "the last 11 account digits, the key index (0 to 6, else 15) and the first four PIN digits".
#[test]
fn pvv_inputs() {
    let mut out = [UNTOUCHED; 8];
    assert_eq!(pvv_input(1, 6, &bytes(P2), ACCOUNT, &mut out), done(8));
    assert_eq!(out[..], bytes("00 00 01 23 45 66 34 56"));
    assert_eq!(pvv_input(99, 7, &bytes(P2), ACCOUNT, &mut out), refused(15));
    assert_eq!(pvv_input(99, 256, &bytes(P2), ACCOUNT, &mut out), refused(15));
    assert_eq!(pvv_input(99, 0, &bytes(P2), ACCOUNT, &mut out), refused(23));
    assert_eq!(pvv_input(34, 0, &bytes(P2), ACCOUNT, &mut out), refused(20));
    assert_eq!(pvv_input(1, 0, &bytes(P2), ACCOUNT, &mut out[1..]), refused(901));
}

/// The presented PVV's form is judged before the block; the block before the comparison.
#[test]
fn pvv_verdicts() {
    let enciphered = bytes("0A 5F C3 E1 7B 2D 94 88");
    let verdict = |index, block: &str, presented: &[u8]| {
        pvv_verdict(1, index, &bytes(block), ACCOUNT, &enciphered, presented)
    };
    let wrong_block = "15 34 16 7F FF ED CB A9";
    assert_eq!(verdict(0, P2, b"0531"), done(0));
    assert_eq!(verdict(6, P2, b"0532"), refused(1));
    assert_eq!(verdict(7, P2, b"0531"), refused(15));
    assert_eq!(verdict(0, wrong_block, b"053"), refused(15));
    assert_eq!(verdict(0, wrong_block, b"053A"), refused(15));
    assert_eq!(verdict(0, wrong_block, b"05311"), refused(15));
    assert_eq!(verdict(0, wrong_block, b"0531"), refused(20));
}

/// PIN 1234 against P9's natural 9532: 2 7 0 2. Rubbish behind the first F of its block in format
/// 03 is 20: 25 comes before it, 81 behind it.
#[test]
fn offsets_of_format_03() {
    let made = |block: &str, check, table: &[u8]| {
        let mut out = [b'.'; 13];
        let (usual, block, enciphered) = (Settings::usual(), bytes(block), bytes(P9));
        let reply = offset(usual, 3, check, &block, ACCOUNT, table, &enciphered, &mut out);
        (reply, String::from_utf8(out.to_vec()).expect("characters"))
    };
    let untouched = ".".repeat(13);
    assert_eq!(made(CLEAN_03, 4, TABLE), (done(12), "2702FFFFFFFF.".to_string()));
    assert_eq!(made(CLEAN_03, 5, TABLE), (refused(81), untouched.clone()));
    assert_eq!(made(RUBBISH_03, 4, TABLE), (refused(20), untouched.clone()));
    assert_eq!(made(RUBBISH_03, 5, TABLE), (refused(20), untouched.clone()));
    assert_eq!(made(SHORT_03, 5, TABLE), (refused(24), untouched.clone()));
    assert_eq!(made(RUBBISH_03, 5, b"A123456789012345"), (refused(25), untouched.clone()));
    assert_eq!(made(RUBBISH_03, 3, TABLE), (refused(15), untouched));
}

/// A malformed offset (15) and 25 come before rubbish behind the first F; 81 and the verdict
/// itself come behind it.
#[test]
fn offset_verdicts_on_format_03() {
    let verdict = |block: &str, check, table: &[u8], presented: &[u8]| {
        let (usual, block, enciphered) = (Settings::usual(), bytes(block), bytes(P9));
        offset_verdict(usual, 3, check, &block, ACCOUNT, table, &enciphered, presented)
    };
    assert_eq!(verdict(CLEAN_03, 4, TABLE, b"2702FFFFFFFF"), done(0));
    assert_eq!(verdict(CLEAN_03, 4, TABLE, b"2703FFFFFFFF"), refused(1));
    assert_eq!(verdict(CLEAN_03, 4, TABLE, b"27020FFFFFFF"), refused(81));
    assert_eq!(verdict(CLEAN_03, 5, TABLE, b"27020FFFFFFF"), refused(81));
    for (check, presented) in
        [(4, b"2702FFFFFFFF"), (4, b"2703FFFFFFFF"), (4, b"27020FFFFFFF"), (5, b"27020FFFFFFF")]
    {
        assert_eq!(verdict(RUBBISH_03, check, TABLE, presented), refused(20));
        assert_eq!(verdict(SHORT_03, check, TABLE, presented), refused(24));
    }
    let letters = b"A123456789012345";
    assert_eq!(verdict(RUBBISH_03, 4, letters, b"2702FFFFFFFF"), refused(25));
    assert_eq!(verdict(RUBBISH_03, 4, letters, b"270FFFFFFFFF"), refused(15));
}

/// The PVV's input and its verdict read the block too.
#[test]
fn pvvs_of_format_03() {
    let mut out = [UNTOUCHED; 8];
    assert_eq!(pvv_input(3, 1, &bytes(RUBBISH_03), ACCOUNT, &mut out), refused(20));
    assert_eq!(pvv_input(3, 7, &bytes(RUBBISH_03), ACCOUNT, &mut out), refused(15));
    assert_eq!(pvv_input(3, 1, &bytes(SHORT_03), ACCOUNT, &mut out), refused(24));
    assert_eq!(out, [UNTOUCHED; 8]);
    assert_eq!(pvv_input(3, 1, &bytes(CLEAN_03), ACCOUNT, &mut out), done(8));
    assert_eq!(out[..], bytes("00 00 01 23 45 61 12 34"));
    let enciphered = bytes("0A 5F C3 E1 7B 2D 94 88");
    let verdict = |block: &str, presented: &[u8]| {
        pvv_verdict(3, 1, &bytes(block), ACCOUNT, &enciphered, presented)
    };
    assert_eq!(verdict(CLEAN_03, b"0531"), done(0));
    assert_eq!(verdict(CLEAN_03, b"0532"), refused(1));
    assert_eq!(verdict(RUBBISH_03, b"0531"), refused(20));
    assert_eq!(verdict(RUBBISH_03, b"0532"), refused(20));
    assert_eq!(verdict(RUBBISH_03, b"053"), refused(15));
    assert_eq!(verdict(SHORT_03, b"0531"), refused(24));
}

/// Every offset that is made is accepted by its verdict, for each length and check length.
#[test]
fn offsets_verify() {
    let enciphered = bytes("FE DC BA 98 76 54 32 10");
    for (length, check) in
        (4..=12).flat_map(|length| (4..=length).map(move |check| (length, check)))
    {
        let pin: Vec<u8> = (0..length).map(|place| (7 * place % 10) as u8).collect();
        let (mut block, mut presented) = ([0; 8], [0; 12]);
        assert_eq!(write_block(47, &pin, ACCOUNT, NO_FILL, &mut block), done(8));
        let usual = Settings::usual();
        let check = check as u32;
        let made = offset(usual, 47, check, &block, ACCOUNT, TABLE, &enciphered, &mut presented);
        assert_eq!(made, done(12));
        let verdict =
            offset_verdict(usual, 47, check, &block, ACCOUNT, TABLE, &enciphered, &presented);
        assert_eq!(verdict, done(0));
    }
}
