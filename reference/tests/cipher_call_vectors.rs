//! What the ciphers, the check value and the parity refuse, and what they leave untouched.

mod common;

use common::{done, refused, UNTOUCHED};
use reference::{des_decipher, des_encipher, key_check, tdes_decipher, tdes_encipher, Reply};

type Cipher = fn(&[u8], &[u8], &mut [u8]) -> Reply;

/// With the lengths that the key may have.
const CIPHERS: [(Cipher, &[usize]); 4] = [
    (des_encipher, &[8]),
    (des_decipher, &[8]),
    (tdes_encipher, &[16, 24]),
    (tdes_decipher, &[16, 24]),
];

/// Lengths from nothing on, and such as a careless narrowing takes for others.
fn lengths() -> impl Iterator<Item = usize> {
    (0..=48).chain([256, 256 + 8, 256 + 16, 256 + 24, 65_536 + 8, 65_536 + 16, 65_536 + 24])
}

/// How many bytes at the front of the output are no longer what they were.
fn touched(out: &[u8]) -> usize {
    out.iter().rposition(|&byte| byte != UNTOUCHED).map_or(0, |last| last + 1)
}

#[test]
fn keys_of_other_lengths_are_15() {
    for (cipher, permitted) in CIPHERS {
        for length in lengths() {
            let mut out = [UNTOUCHED; 12];
            let reply = cipher(&vec![0; length], &[0; 8], &mut out);
            let is_permitted = permitted.contains(&length);
            assert_eq!(reply, if is_permitted { done(8) } else { refused(15) }, "{length}");
            assert_eq!(touched(&out), if is_permitted { 8 } else { 0 });
        }
    }
}

#[test]
fn blocks_of_other_lengths_are_15() {
    for (cipher, permitted) in CIPHERS {
        for length in lengths().filter(|&length| length != 8) {
            for &key in permitted {
                let mut out = [UNTOUCHED; 12];
                let reply = cipher(&vec![0; key], &vec![0; length], &mut out);
                assert_eq!((reply, touched(&out)), (refused(15), 0), "{length}");
            }
        }
    }
}

/// 901 comes before both; 8 bytes are enough and more are fine.
#[test]
fn short_output_comes_first() {
    for (cipher, permitted) in CIPHERS {
        let key = vec![0; permitted[0]];
        for room in 0..20 {
            for (key, block) in [(&key[..], &[0; 8][..]), (&[], &[0; 8]), (&key, &[]), (&[], &[])] {
                let mut out = vec![UNTOUCHED; room];
                let whole = !key.is_empty() && !block.is_empty();
                let wanted = match (room < 8, whole) {
                    (true, _) => refused(901),
                    (false, true) => done(8),
                    (false, false) => refused(15),
                };
                assert_eq!(cipher(key, block, &mut out), wanted);
                assert_eq!(touched(&out), wanted.written as usize);
            }
        }
    }
}

/// A DES key has no check value here.
#[test]
fn check_values_are_of_lab_keys() {
    for length in lengths() {
        let key = vec![0; length];
        for room in 0..10 {
            let mut out = vec![UNTOUCHED; room];
            let wanted = match (room < 3, [16, 24].contains(&length)) {
                (true, _) => refused(901),
                (false, true) => done(3),
                (false, false) => refused(15),
            };
            assert_eq!(key_check(&key, &mut out), wanted, "key {length}, room {room}");
            assert_eq!(touched(&out), wanted.written as usize);
        }
    }
}
