//! Clear lab keys of good parity, with what they make of the paper's figures. OpenSSL made these.

use super::{bytes, UNTOUCHED};
use reference::{lab_answer, Reply, Settings};

/// PIN keys of two and of three parts, and P2 under each: PIN 34567, account 400000123456.
pub const PIN_KEYS: [(&str, &str); 2] = [
    ("0123456789ABCDEF FEDCBA9876543210", "A6C27D9717227471"),
    ("0123456789ABCDEF 8080808080808080 FEDCBA9876543210", "6EDB87624E966113"),
];

/// PVKs of two and of three parts, and the offset of PIN 34567 that each makes with the paper's
/// validation data and table: natural 08434 and 76050, check length 4.
pub const PVKS: [(&str, &str); 2] = [
    ("401A1A1A1A1A1A1A BA1C1C1C1C1C1C1C", "6133"),
    ("401A1A1A1A1A1A1A 461C1C1C1C1C1C1C 3B3B3B3B3B3B3B3B", "8517"),
];

pub fn pin_key() -> Vec<u8> {
    bytes(PIN_KEYS[0].0)
}

pub fn pvk() -> Vec<u8> {
    bytes(PVKS[0].0)
}

/// P2 under `pin_key`.
pub fn sealed() -> &'static [u8] {
    PIN_KEYS[0].1.as_bytes()
}

/// The reply and what it wrote; the bytes behind that must be untouched.
pub fn answered(settings: Settings, command: &[u8], keys: [&[u8]; 2]) -> (Reply, Vec<u8>) {
    let mut out = vec![UNTOUCHED; 70];
    let reply = lab_answer(settings, command, keys[0], keys[1], &mut out);
    let rest = out.split_off(reply.written as usize);
    assert!(rest.iter().all(|&byte| byte == UNTOUCHED));
    (reply, out)
}
