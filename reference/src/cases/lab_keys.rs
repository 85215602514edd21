//! Clear keys, whole and damaged.

use super::dice::Dice;

/// The lengths of a lab key.
pub const LAB_LENGTHS: [usize; 2] = [16, 24];

/// Other lengths, also such as would be a lab key's after a careless narrowing.
const NEITHER: [usize; 14] = [0, 7, 8, 9, 15, 17, 20, 23, 25, 32, 40, 48, 256 + 16, 256 + 24];

/// Keys that are all of one byte: those of 01 and of FE are weak, the others are not.
const ONE_BYTE: &[u8] = &[0x01, 0xFE, 0x1F, 0xE0];

/// Two keys or three, of good parity.
pub fn whole(dice: &mut Dice) -> Vec<u8> {
    let length = dice.pick(&LAB_LENGTHS);
    of_length(dice, length)
}

/// As many bytes of good parity. Of some the parts are alike, so that triple DES has the strength
/// of less.
pub fn of_length(dice: &mut Dice, length: usize) -> Vec<u8> {
    let mut key = match dice.below(12) {
        0 => vec![dice.pick(ONE_BYTE); length],
        1 => repeated(dice, 8, length),
        2 => repeated(dice, 16, length),
        _ => dice.bytes(length),
    };
    key.iter_mut().for_each(mend);
    key
}

fn repeated(dice: &mut Dice, part: usize, length: usize) -> Vec<u8> {
    let part = dice.bytes(part);
    part.into_iter().cycle().take(length).collect()
}

/// The last bit of a byte makes its ones odd.
fn mend(byte: &mut u8) {
    let seven = *byte >> 1;
    *byte = seven << 1 | (1 ^ seven.count_ones() as u8 & 1);
}

/// Bad parity most often in one byte; in two, where a sum over the whole key sees nothing; or in
/// all. In half of the bytes the parity bit alone is wrong, which the cipher does not see.
pub fn spoil_parity(dice: &mut Dice, key: &mut [u8]) {
    if key.is_empty() {
        return;
    }
    match dice.below(8) {
        0 => key.iter_mut().for_each(|byte| *byte ^= 1),
        1 => spoil_bytes(dice, key, 2),
        _ => spoil_bytes(dice, key, 1),
    }
}

fn spoil_bytes(dice: &mut Dice, key: &mut [u8], count: usize) {
    for _ in 0..count {
        let place = dice.below(key.len());
        key[place] ^= if dice.chance(50) { 1 } else { 1 << dice.below(8) };
    }
}

/// Neither two keys nor three: cut or repeated, so that its parity stays what it was, or drawn anew.
pub fn damage_length(dice: &mut Dice, key: &mut Vec<u8>) {
    let length = if dice.chance(80) { dice.pick(&NEITHER) } else { dice.below(41) };
    if key.is_empty() || dice.chance(30) {
        *key = of_length(dice, length);
    } else {
        *key = key.iter().copied().cycle().take(length).collect();
    }
}
