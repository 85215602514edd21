//! Validation data, whole and malformed.

use super::dice::Dice;
use super::parts;

pub const HEX: &[u8] = b"0123456789ABCDEF";

/// Either of the two forms.
pub fn whole(dice: &mut Dice) -> Vec<u8> {
    if dice.chance(60) {
        with_n(dice)
    } else {
        with_p(dice)
    }
}

fn with_n(dice: &mut Dice) -> Vec<u8> {
    let mut characters = dice.characters(12, HEX);
    let place = dice.below(12);
    characters[place] = b'N';
    characters
}

fn with_p(dice: &mut Dice) -> Vec<u8> {
    let mut characters = dice.characters(17, HEX);
    characters[0] = b'P';
    characters
}

/// Most ways malform the data; a few leave it whole.
pub fn damage(dice: &mut Dice, characters: &mut Vec<u8>) {
    match dice.below(10) {
        0 => parts::damage_length(dice, characters),
        1 => replace_one(dice, characters, b"N"),
        2 => replace_one(dice, characters, b"P"),
        3 => replace_one(dice, characters, b"abcdefnpGgO:@/ `\x00\x19\x7F\xC1\xFF"),
        4 => *characters = dice.characters(12, HEX),
        5 => characters.make_ascii_lowercase(),
        6 => of_length_and_first(dice, characters),
        7 => *characters = dice.characters(17, HEX),
        8 => replace_one(dice, characters, HEX),
        _ => add_or_remove_one(dice, characters),
    }
}

fn replace_one(dice: &mut Dice, characters: &mut [u8], alphabet: &[u8]) {
    if !characters.is_empty() {
        let place = dice.below(characters.len());
        characters[place] = dice.pick(alphabet);
    }
}

/// `P` with the other form's length, or a mark with any length.
fn of_length_and_first(dice: &mut Dice, characters: &mut Vec<u8>) {
    let length = dice.pick(&[1, 11, 12, 12, 13, 16, 17, 18, 20]);
    *characters = dice.characters(length, HEX);
    characters[0] = dice.pick(b"PNp");
}

fn add_or_remove_one(dice: &mut Dice, characters: &mut Vec<u8>) {
    if dice.chance(50) {
        characters.push(dice.pick(HEX));
    } else {
        characters.pop();
    }
}
