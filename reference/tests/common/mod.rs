//! What the tests share.
#![allow(dead_code)] // each test file uses its own part

pub mod bk;
pub mod command;
pub mod format_03;
pub mod lab;
pub mod verification;
pub mod walk;

use reference::{Reply, Settings};

pub const ACCOUNT: &[u8] = b"400000123456";
pub const TABLE: &[u8] = b"0123456789012345";
pub const NO_FILL: &[u8] = &[0; 8];
pub const UNTOUCHED: u8 = 0xA5;

/// The instructor's block of request §2, format 03 with rubbish behind its first F; the block of
/// its PIN 1234 as it must be; and rubbish behind an F that comes after three digits.
pub const RUBBISH_03: &str = "12 34 FF 99 00 00 00 00";
pub const CLEAN_03: &str = "12 34 FF FF FF FF FF FF";
pub const SHORT_03: &str = "12 3F 99 00 00 00 00 00";

/// PIN 34567 and account 400000123456 in each format, with fill bytes 00: P2, P5, P4, source 000's
/// block of format 34, P1 and P3.
pub const BLOCKS: [(u32, &str); 6] = [
    (1, "05 34 16 7F FF ED CB A9"),
    (3, "34 56 7F FF FF FF FF FF"),
    (5, "15 34 56 70 00 00 00 00"),
    (34, "25 34 56 7F FF FF FF FF"),
    (35, "25 34 16 7F FF ED CB A9"),
    (47, "35 34 16 7A AA B8 9E FC"),
];

/// Restricted formats No, asked for by name: where BK is sent a format, or translation a pair, that
/// it allows under No alone; where 69 must come of a format that is not built, since under Yes BK
/// answers it to all but 01 and 47; and where both settings are played.
pub fn unrestricted() -> Settings {
    Settings { restricted: false, ..Settings::usual() }
}

/// Yes by name: what is said of it holds whatever is usual.
pub fn restricted() -> Settings {
    Settings { restricted: true, ..Settings::usual() }
}

/// Hex pairs, with or without spaces between them, as bytes.
pub fn bytes(hex: &str) -> Vec<u8> {
    let nibbles: Vec<u8> = hex
        .chars()
        .filter(|character| !character.is_whitespace())
        .map(|character| character.to_digit(16).expect("a hex character") as u8)
        .collect();
    nibbles.chunks(2).map(|pair| pair[0] << 4 | pair[1]).collect()
}

/// Digit characters as values.
pub fn digits(text: &str) -> Vec<u8> {
    text.bytes().map(|character| character - b'0').collect()
}

/// A reply with all its members.
pub fn at(place: u32, field: u32, number: u32, written: u32) -> Reply {
    Reply { number, written, place, field }
}

/// A reply that points nowhere.
pub fn done(written: u32) -> Reply {
    at(0, 0, 0, written)
}

/// The same of a refusal that writes nothing.
pub fn refused(number: u32) -> Reply {
    at(0, 0, number, 0)
}
