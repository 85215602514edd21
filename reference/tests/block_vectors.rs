//! Worked blocks of the paper and of its sources, and the order of judging.

mod common;

use common::{
    bytes, digits, done, refused, restricted, unrestricted, ACCOUNT, BLOCKS, CLEAN_03, NO_FILL,
    RUBBISH_03, SHORT_03, UNTOUCHED,
};
use reference::{read_block, translate, write_block, Reply, Settings};

/// The block of a PIN; also that reading gives the PIN back and that the buffer's other bytes
/// keep their values.
fn assert_both_ways(format: u32, pin: &str, block: &str) {
    let pin = digits(pin);
    let block = bytes(block);
    let mut out = [UNTOUCHED; 9];
    assert_eq!(write_block(format, &pin, ACCOUNT, NO_FILL, &mut out), done(8));
    assert_eq!(out[..8], block[..]);
    assert_eq!(out[8], UNTOUCHED);
    let mut out = [UNTOUCHED; 13];
    assert_eq!(read_block(format, &block, ACCOUNT, &mut out), done(pin.len() as u32));
    assert_eq!(out[..pin.len()], pin[..]);
    assert!(out[pin.len()..].iter().all(|&byte| byte == UNTOUCHED));
}

fn assert_reading_refused(format: u32, block: &str, number: u32) {
    let mut out = [UNTOUCHED; 12];
    assert_eq!(read_block(format, &bytes(block), ACCOUNT, &mut out), refused(number));
    assert_eq!(out, [UNTOUCHED; 12]);
}

/// P1 to P6 of the paper.
#[test]
fn proved_blocks() {
    assert_both_ways(35, "34567", "25 34 16 7F FF ED CB A9");
    assert_both_ways(1, "34567", "05 34 16 7F FF ED CB A9");
    assert_both_ways(47, "34567", "35 34 16 7A AA B8 9E FC");
    assert_both_ways(5, "34567", "15 34 56 70 00 00 00 00");
    assert_both_ways(3, "34567", "34 56 7F FF FF FF FF FF");
    assert_both_ways(34, "123456789012", "2C 12 34 56 78 90 12 FF");
}

/// P7 and P8 of the paper. P7 holds for every tail behind 2D; three of them stand here.
#[test]
fn proved_refusals() {
    assert_reading_refused(34, "23 12 3F FF FF FF FF FF", 24);
    assert_reading_refused(34, "2D 12 34 56 78 90 12 3F", 24);
    assert_reading_refused(34, "2D FF FF FF FF FF FF FF", 24);
    assert_reading_refused(34, "2D 00 00 00 00 00 00 00", 24);
    assert_reading_refused(34, "24 12 3A FF FF FF FF FF", 20);
}

/// Source 000, section 11.2.1: PIN 92389, account number 4000 0012 3456 with check digit 2.
#[test]
fn source_000_format_01() {
    assert_both_ways(1, "92389", "05 92 78 9F FF ED CB A9");
}

/// Source 000, section 11.2.2: PIN 92389.
#[test]
fn source_000_format_03() {
    assert_both_ways(3, "92389", "92 38 9F FF FF FF FF FF");
}

/// Source 000, section 11.2.4: PIN 34567.
#[test]
fn source_000_format_34() {
    assert_both_ways(34, "34567", "25 34 56 7F FF FF FF FF");
}

/// Source 000, section 11.2.5: PIN 34567; account digits 4000 0012 3456 out of a 16-digit card
/// number.
#[test]
fn source_000_format_35() {
    assert_both_ways(35, "34567", "25 34 16 7F FF ED CB A9");
}

/// Sources 001 (A.1.2) and 002 (A.1.2): PIN 1234567. Their print has lost part of the fill; the
/// block has seven F.
#[test]
fn sources_001_and_002_format_34() {
    assert_both_ways(34, "1234567", "27 12 34 56 7F FF FF FF");
}

/// Source 000, section 11.2.3, names three checks for format 05; the paper puts N before digits.
#[test]
fn format_05_control_then_length_then_digits() {
    assert_reading_refused(5, "03 A0 00 00 00 00 00 00", 20);
    assert_reading_refused(5, "13 A0 00 00 00 00 00 00", 24);
    assert_reading_refused(5, "14 A0 00 00 00 00 00 00", 20);
}

/// "testing its fill before the account is removed" is a slip: account 400000123456 turns a
/// clear A into other nibbles, and a clear 9 into a letter.
#[test]
fn format_47_fill_is_judged_without_the_account() {
    assert_both_ways(47, "3456", "34 34 16 AA AA B8 9E FC");
    // The last clear nibble would be 9: its block nibble is F.
    assert_reading_refused(47, "34 34 16 AA AA B8 9E FF", 20);
}

/// "47 takes ten plus its remainder by six", "format 05 takes the nibble", at their own places.
#[test]
fn fill_nibble_for_nibble() {
    let fill = bytes("01 23 45 67 89 AB CD EF");
    let zeros = b"000000000000";
    let mut out = [0; 8];
    assert_eq!(write_block(47, &[1, 2, 3, 4], zeros, &fill, &mut out), done(8));
    assert_eq!(out[..], bytes("34 12 34 AB CD EF AB CD"));
    assert_eq!(write_block(5, &[1, 2, 3, 4, 5], zeros, &fill, &mut out), done(8));
    assert_eq!(out[..], bytes("15 12 34 57 89 AB CD EF"));
}

/// Request §2: "An instructor sent 12 34 FF 99 00 00 00 00 and we read PIN 1234. [..] After the
/// first F every nibble must be F."
#[test]
fn format_03_has_nothing_but_f_behind_the_first() {
    assert_reading_refused(3, RUBBISH_03, 20);
    assert_both_ways(3, "1234", CLEAN_03);
    assert_reading_refused(3, "12 34 F0 AB CD EF 01 23", 20);
    // directly behind the F, between, in the last place
    assert_reading_refused(3, "12 34 F0 FF FF FF FF FF", 20);
    assert_reading_refused(3, "12 34 FE FF FF FF FF FF", 20);
    assert_reading_refused(3, "12 34 FF FF 9F FF FF FF", 20);
    assert_reading_refused(3, "12 34 FF FF FF FF FF F0", 20);
    assert_reading_refused(3, "12 34 FF FF FF FF FF FE", 20);
    assert_reading_refused(3, "12 34 5F FF FF FF FF FE", 20);
    // behind twelve digits three places are left
    assert_reading_refused(3, "12 34 56 78 90 12 F0 FF", 20);
    assert_reading_refused(3, "12 34 56 78 90 12 FF EF", 20);
    assert_reading_refused(3, "12 34 56 78 90 12 FF F0", 20);
    assert_reading_refused(3, "12 34 56 78 90 12 FF FE", 20);
}

/// Each length that a PIN has: its block is read, and is 20 with any nibble behind the first F
/// that is not F.
#[test]
fn format_03_with_each_nibble_behind_the_f() {
    for length in 4..=12 {
        let pin = &"123456789012"[..length];
        let clean = format!("{pin:F<16}");
        assert_both_ways(3, pin, &clean);
        for (place, value) in (length + 1..16).flat_map(|place| (0..15).map(move |it| (place, it)))
        {
            let mut block = clean.clone();
            block.replace_range(place..=place, &format!("{value:X}"));
            assert_reading_refused(3, &block, 20);
        }
    }
}

/// "A to E before the first F is 20; then a count outside 4 to 12 is 24."
#[test]
fn format_03_judges_letters_before_the_count() {
    assert_reading_refused(3, "12 AF FF FF FF FF FF FF", 20);
    assert_reading_refused(3, "12 3E FF FF FF FF FF FF", 20);
    assert_reading_refused(3, "12 34 56 78 90 12 34 5E", 20);
    assert_reading_refused(3, "12 3F FF FF FF FF FF FF", 24);
    assert_reading_refused(3, "FF FF FF FF FF FF FF FF", 24);
    assert_reading_refused(3, "12 34 56 78 90 12 3F FF", 24);
    assert_reading_refused(3, "12 34 56 78 90 12 34 5F", 24);
    assert_reading_refused(3, "12 34 56 78 90 12 34 56", 24);
}

/// Request §2: "20 for a non-F nibble behind the first F, judged after 24."
#[test]
fn format_03_judges_the_count_before_what_stands_behind_the_f() {
    for few in ["F0 00 00 00 00 00 00 00", "1F 99 00 00 00 00 00 00", "12 F9 00 00 00 00 00 00"] {
        assert_reading_refused(3, few, 24);
    }
    assert_reading_refused(3, SHORT_03, 24);
    assert_reading_refused(3, "12 3F EF FF FF FF FF FF", 24);
    assert_reading_refused(3, "12 3F FF FF FF FF FF F0", 24);
    assert_reading_refused(3, "12 3F 45 67 89 01 23 45", 24);
    assert_reading_refused(3, "12 34 56 78 90 12 3F 0F", 24);
    assert_reading_refused(3, "12 34 56 78 90 12 3F FE", 24);
    assert_reading_refused(3, "12 34 56 78 90 12 34 F0", 24);
}

/// A letter before the first F is 20 whatever stands behind it, and however many digits there are.
#[test]
fn format_03_with_letters_before_the_f_and_rubbish_behind_it() {
    for tail in ["FF FF FF FF FF FF", "99 00 00 00 00 00", "0F FF FF FF FF FF", "FF FF FF FF FF FE"]
    {
        assert_reading_refused(3, &format!("1A FF {tail}"), 20);
        assert_reading_refused(3, &format!("AF FF {tail}"), 20);
    }
    assert_reading_refused(3, "1E 34 FF 99 00 00 00 00", 20);
    assert_reading_refused(3, "12 3A FF 99 00 00 00 00", 20);
    assert_reading_refused(3, "12 34 56 78 90 1B F0 00", 20);
    assert_reading_refused(3, "12 34 56 78 90 12 3C F0", 20);
}

#[test]
fn reading_judges_in_order() {
    let block = bytes("23 12 3F FF FF FF FF FF");
    let mut out = [UNTOUCHED; 12];
    assert_eq!(read_block(99, &block[1..], b"", &mut out[1..]), refused(901));
    assert_eq!(read_block(99, &block[1..], ACCOUNT, &mut out), refused(15));
    assert_eq!(read_block(99, &block, b"40000012345:", &mut out), refused(15));
    assert_eq!(read_block(99, &block, b"4000001234560", &mut out), refused(15));
    assert_eq!(read_block(99, &block, ACCOUNT, &mut out), refused(23));
    assert_eq!(read_block(256 + 34, &block, ACCOUNT, &mut out), refused(23));
    for known in [41, 42, 48] {
        assert_eq!(read_block(known, &block, ACCOUNT, &mut out), refused(69));
    }
    assert_eq!(out, [UNTOUCHED; 12]);
}

/// "24 before 20 for a PIN to be written".
#[test]
fn writing_judges_in_order() {
    let mut out = [UNTOUCHED; 8];
    assert_eq!(write_block(2, &[10], b"", &[], &mut out[1..]), refused(901));
    assert_eq!(write_block(2, &[10], b"", NO_FILL, &mut out), refused(15));
    assert_eq!(write_block(2, &[10], ACCOUNT, &NO_FILL[1..], &mut out), refused(15));
    assert_eq!(write_block(2, &[10], ACCOUNT, NO_FILL, &mut out), refused(23));
    assert_eq!(write_block(42, &[10], ACCOUNT, NO_FILL, &mut out), refused(69));
    assert_eq!(write_block(1, &[10; 3], ACCOUNT, NO_FILL, &mut out), refused(24));
    assert_eq!(write_block(1, &[10; 13], ACCOUNT, NO_FILL, &mut out), refused(24));
    assert_eq!(write_block(1, &[1, 2, 3, 10], ACCOUNT, NO_FILL, &mut out), refused(20));
    assert_eq!(out, [UNTOUCHED; 8]);
}

fn translated(restricted: u8, from: u32, to: u32, block: &str) -> (Reply, Vec<u8>) {
    let mut out = vec![UNTOUCHED; 8];
    let settings = Settings::of_face(99, restricted, 0);
    let reply = translate(settings, from, to, &bytes(block), ACCOUNT, NO_FILL, &mut out);
    (reply, out)
}

#[test]
fn translation_keeps_the_pin() {
    let (reply, block) = translated(0, 3, 35, "34 56 7F FF FF FF FF FF");
    assert_eq!((reply, block), (done(8), bytes("25 34 16 7F FF ED CB A9")));
    let (reply, block) = translated(255, 1, 47, "05 34 16 7F FF ED CB A9");
    assert_eq!((reply, block), (done(8), bytes("35 34 16 7A AA B8 9E FC")));
    let (reply, block) = translated(0, 3, 1, CLEAN_03);
    assert_eq!((reply, block), (done(8), bytes("04 12 74 FF FF ED CB A9")));
}

/// Rubbish behind the first F of a block of format 03 is judged after the formats, and no format
/// takes it along.
#[test]
fn translation_refuses_rubbish_in_format_03() {
    let untouched = vec![UNTOUCHED; 8];
    for to in [1, 3, 5, 34, 35, 47] {
        assert_eq!(translated(0, 3, to, RUBBISH_03), (refused(20), untouched.clone()));
        assert_eq!(translated(0, 3, to, CLEAN_03).0, done(8));
    }
    assert_eq!(translated(0, 3, 3, CLEAN_03).1, bytes(CLEAN_03));
    for (restricted, to, number) in [(1, 2, 23), (1, 41, 69), (1, 1, 69), (1, 3, 69)] {
        let answer = translated(restricted, 3, to, RUBBISH_03);
        assert_eq!(answer, (refused(number), untouched.clone()));
    }
    assert_eq!(translated(0, 3, 1, SHORT_03), (refused(24), untouched));
}

/// "at 23 and at 69 the reading format comes first", then the pair, then the block.
#[test]
fn translation_judges_formats_first() {
    let wrong_block = "F0 00 00 00 00 00 00 00";
    let untouched = vec![UNTOUCHED; 8];
    for (restricted, from, to, number) in [
        (1, 41, 0, 23),
        (1, 0, 41, 23),
        (0, 41, 1, 69),
        (0, 1, 41, 69),
        (1, 1, 5, 69),
        (1, 1, 47, 20),
    ] {
        let answer = translated(restricted, from, to, wrong_block);
        assert_eq!(answer, (refused(number), untouched.clone()));
    }
}

/// PIN 34567 from every format into every one. A pair that is allowed gives the block of the format
/// that is written; any other is 69 and writes nothing.
fn assert_pairs(settings: Settings, is_allowed: impl Fn(u32, u32) -> bool) {
    for ((from, block), (to, made)) in BLOCKS.iter().flat_map(|from| BLOCKS.map(|to| (*from, to))) {
        let mut out = vec![UNTOUCHED; 8];
        let reply = translate(settings, from, to, &bytes(block), ACCOUNT, NO_FILL, &mut out);
        let expected = if is_allowed(from, to) {
            (done(8), bytes(made))
        } else {
            (refused(69), vec![UNTOUCHED; 8])
        };
        assert_eq!((reply, out), expected, "{from} to {to}");
    }
}

/// "Restricted: 05 to 01, 47, 05; 01 and 47 to 01, 47; every other built pair is 69. Unrestricted:
/// all pairs of the six." Request §5 makes restricted the usual.
#[test]
fn restricted_pairs() {
    let allowed = [(5, 1), (5, 47), (5, 5), (1, 1), (1, 47), (47, 1), (47, 47)];
    for settings in [Settings::usual(), restricted()] {
        assert_pairs(settings, |from, to| allowed.contains(&(from, to)));
    }
    assert_pairs(unrestricted(), |_, _| true);
}
