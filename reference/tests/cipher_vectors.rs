//! Known answers of DES and triple DES, and the laws that every key keeps.

mod common;

use common::{bytes, done};
use reference::cases::dice::Dice;
use reference::des_tables::S;
use reference::Reply;
use reference::{des_decipher, des_encipher, key_check, odd_parity, tdes_decipher, tdes_encipher};

type Cipher = fn(&[u8], &[u8], &mut [u8]) -> Reply;

/// One block, which the call must write.
fn ciphered(cipher: Cipher, key: &[u8], block: &[u8]) -> Vec<u8> {
    let mut out = [0; 8];
    assert_eq!(cipher(key, block, &mut out), done(8));
    out.to_vec()
}

/// Key, block and enciphered block, looked at in both directions.
fn assert_known(encipher: Cipher, decipher: Cipher, vector: [&str; 3]) {
    let [key, block, enciphered] = vector.map(bytes);
    assert_eq!(ciphered(encipher, &key, &block), enciphered, "{vector:?}");
    assert_eq!(ciphered(decipher, &key, &enciphered), block, "{vector:?}");
}

fn check_value(key: &[u8]) -> Vec<u8> {
    let mut out = [0; 3];
    assert_eq!(key_check(key, &mut out), done(3));
    out.to_vec()
}

/// The textbooks' example.
#[test]
fn classical_example() {
    let vector = ["133457799BBCDFF1", "0123456789ABCDEF", "85E813540F0AB405"];
    assert_known(des_encipher, des_decipher, vector);
}

/// NIST's variable plaintext test: one bit of the block at a time.
#[test]
fn variable_plaintext() {
    let zero = "0101010101010101";
    for [block, enciphered] in [
        ["8000000000000000", "95F8A5E5DD31D900"],
        ["4000000000000000", "DD7F121CA5015619"],
        ["2000000000000000", "2E8653104F3834EA"],
        ["1000000000000000", "4BD388FF6CD81D4F"],
        ["0800000000000000", "20B9E767B2FB1456"],
        ["0400000000000000", "55579380D77138EF"],
        ["0200000000000000", "6CC5DEFAAF04512F"],
        ["0100000000000000", "0D9F279BA5D87260"],
        ["0000000000000001", "166B40B44ABA4BD6"],
    ] {
        assert_known(des_encipher, des_decipher, [zero, block, enciphered]);
    }
}

/// NIST's variable key test: one bit of the key at a time, beside the parity bits.
#[test]
fn variable_key() {
    let zero = "0000000000000000";
    for [key, enciphered] in [
        ["8001010101010101", "95A8D72813DAA94D"],
        ["4001010101010101", "0EEC1487DD8C26D5"],
        ["2001010101010101", "7AD16FFB79C45926"],
        ["1001010101010101", "D3746294CA6A6CF3"],
        ["0801010101010101", "809F5F873C1FD761"],
        ["0401010101010101", "C02FAFFEC989D1FC"],
        ["0201010101010101", "4615AA1D33E72F10"],
        ["0180010101010101", "2055123350C00858"],
        ["0101010101010102", "869EFD7F9F265A09"],
    ] {
        assert_known(des_encipher, des_decipher, [key, zero, enciphered]);
    }
}

/// NIST's permutation and substitution tests, the first of each.
#[test]
fn permutation_and_substitution() {
    for vector in [
        ["1046913489980131", "0000000000000000", "88D55E54F54C97B4"],
        ["1007103489988020", "0000000000000000", "0C0CC00C83EA48FD"],
        ["7CA110454A1A6E57", "01A1D6D039776742", "690F5B0D9A26939B"],
        ["0131D9619DC1376E", "5CD54CA83DEF57DA", "7A389D10354BD271"],
        ["07A1133E4A0B2686", "0248D43806F67172", "868EBB51CAB4599A"],
        ["3849674C2602319E", "51454B582DDF440A", "7178876E01F19B2A"],
    ] {
        assert_known(des_encipher, des_decipher, vector);
    }
}

/// Source 000, 6.3.3: the two halves of the key MK-SMI under the test LMK's pair 28-29, variant 2.
#[test]
fn source_000_two_keys() {
    for vector in [
        ["401A1A1A1A1A1A1ABA1C1C1C1C1C1C1C", "F1F1F1F1F1F1F1F1", "5178C9D3D1052B15"],
        ["401A1A1A1A1A1A1A461C1C1C1C1C1C1C", "C1C1C1C1C1C1C1C1", "BF6AEC458B4A4564"],
    ] {
        assert_known(tdes_encipher, tdes_decipher, vector);
    }
}

/// Source 000, 6.4.1.1: the test key block LMK and its check value.
#[test]
fn source_000_three_keys() {
    let lmk = bytes("0123456789ABCDEF 8080808080808080 FEDCBA9876543210");
    assert!(odd_parity(&lmk));
    assert_eq!(check_value(&lmk), bytes("8E0EC0"));
}

/// A check value is cut from the left of a block of zeros under the key.
#[test]
fn check_value_is_the_first_bytes() {
    let mut dice = Dice::new(3);
    for length in [16, 24].repeat(50) {
        let key = dice.bytes(length);
        assert_eq!(check_value(&key), ciphered(tdes_encipher, &key, &[0; 8])[..3]);
    }
}

/// Enciphering twice under a weak key gives the block back.
#[test]
fn weak_keys_undo_themselves() {
    let mut dice = Dice::new(4);
    for key in ["0101010101010101", "FEFEFEFEFEFEFEFE", "1F1F1F1F0E0E0E0E", "E0E0E0E0F1F1F1F1"] {
        let (key, block) = (bytes(key), dice.bytes(8));
        assert!(odd_parity(&key));
        let once = ciphered(des_encipher, &key, &block);
        assert_ne!(once, block);
        assert_eq!(ciphered(des_encipher, &key, &once), block);
        assert_eq!(ciphered(des_decipher, &key, &block), once);
    }
}

/// The keys of a semi-weak pair undo each other, and neither itself.
#[test]
fn semi_weak_keys_undo_each_other() {
    let mut dice = Dice::new(5);
    for pair in [
        ["01FE01FE01FE01FE", "FE01FE01FE01FE01"],
        ["1FE01FE00EF10EF1", "E01FE01FF10EF10E"],
        ["01E001E001F101F1", "E001E001F101F101"],
        ["1FFE1FFE0EFE0EFE", "FE1FFE1FFE0EFE0E"],
        ["011F011F010E010E", "1F011F010E010E01"],
        ["E0FEE0FEF1FEF1FE", "FEE0FEE0FEF1FEF1"],
    ] {
        let ([one, other], block) = (pair.map(bytes), dice.bytes(8));
        let once = ciphered(des_encipher, &one, &block);
        assert_eq!(ciphered(des_encipher, &other, &once), block);
        assert_ne!(ciphered(des_encipher, &one, &once), block);
    }
}

/// Any key, of good parity or not, in both directions.
#[test]
fn deciphering_undoes_enciphering() {
    let mut dice = Dice::new(6);
    let ciphers: [(usize, Cipher, Cipher); 3] = [
        (8, des_encipher, des_decipher),
        (16, tdes_encipher, tdes_decipher),
        (24, tdes_encipher, tdes_decipher),
    ];
    for (length, encipher, decipher) in ciphers.repeat(1000) {
        let (key, block) = (dice.bytes(length), dice.bytes(8));
        let [one, other] = [(encipher, decipher), (decipher, encipher)]
            .map(|(first, second)| ciphered(second, &key, &ciphered(first, &key, &block)));
        assert_eq!((&one, &other), (&block, &block));
    }
}

/// The last bit of each byte of a key changes nothing; every other bit changes the block.
#[test]
fn parity_bits_do_not_enter() {
    let mut dice = Dice::new(7);
    let ciphers: [(usize, Cipher); 3] =
        [(8, des_encipher), (16, tdes_encipher), (24, tdes_encipher)];
    for (length, encipher) in ciphers {
        let (key, block) = (dice.bytes(length), dice.bytes(8));
        let enciphered = ciphered(encipher, &key, &block);
        for bit in 0..8 * length {
            let mut other = key.clone();
            other[bit / 8] ^= 0x80 >> (bit % 8);
            let same = ciphered(encipher, &other, &block) == enciphered;
            assert_eq!(same, bit % 8 == 7, "bit {bit} of a key of {length} bytes");
        }
    }
}

/// Two keys are K1 K2 K1; equal neighbours undo each other and leave DES with the third.
#[test]
fn which_key_comes_where() {
    let mut dice = Dice::new(8);
    for _ in 0..100 {
        let [one, two, block] = [(); 3].map(|()| dice.bytes(8));
        let of_two = ciphered(tdes_encipher, &[&one[..], &two].concat(), &block);
        let of_three = |keys: [&[u8]; 3]| ciphered(tdes_encipher, &keys.concat(), &block);
        assert_eq!(of_two, of_three([&one, &two, &one]));
        assert_ne!(of_two, of_three([&two, &one, &two]));
        assert_eq!(of_three([&one, &one, &two]), ciphered(des_encipher, &two, &block));
        assert_eq!(of_three([&two, &one, &one]), ciphered(des_encipher, &two, &block));
        let steps = ciphered(des_decipher, &two, &ciphered(des_encipher, &one, &block));
        assert_eq!(of_two, ciphered(des_encipher, &one, &steps));
    }
}

/// Each row of each box holds every value once.
#[test]
fn rows_of_the_boxes() {
    for row in S.iter().flatten() {
        let mut values = *row;
        values.sort();
        assert!(values.into_iter().eq(0..16));
    }
}

#[test]
fn every_byte_has_odd_parity() {
    assert!(odd_parity(&[]));
    for byte in 0..=255_u8 {
        let ones = (0..8).filter(|place| byte >> place & 1 == 1).count();
        assert_eq!(odd_parity(&[byte]), ones % 2 == 1, "{byte:02X}");
    }
    for length in [8, 15, 16, 24, 32, 272] {
        let good = vec![0xFE; length];
        assert!(odd_parity(&good));
        for place in 0..length {
            let mut key = good.clone();
            key[place] = 0xFF;
            assert!(!odd_parity(&key), "byte {place} of {length}");
        }
    }
    // two bad bytes together have an even number of ones more
    assert!(!odd_parity(&[0x00, 0x03]));
}
