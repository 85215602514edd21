//! Key fields, whole and damaged.

use super::dice::Dice;
use super::validation::HEX;
use crate::command::Command;
use crate::key_field::PermittedUse;

/// A key field of a command: what it permits, and what the other one does.
#[derive(Clone, Copy)]
pub struct Place {
    own: &'static PermittedUse,
    other: &'static PermittedUse,
}

impl Place {
    pub fn pin_key(command: &'static Command) -> Place {
        Place { own: &command.pin_key, other: &command.pvk }
    }

    pub fn pvk(command: &'static Command) -> Place {
        Place { own: &command.pvk, other: &command.pin_key }
    }
}

const PRINTABLE: &[u8] = b" !0123456789;%PNSTUVXBDabcz~|}";

/// Uses of a key, permitted in one of the two fields of some command or in none.
const USAGES: [&[u8; 2]; 18] = [
    b"P0", b"71", b"72", b"V1", b"P0", b"71", b"72", b"V1", b"V2", b"V0", b"P1", b"70", b"73",
    b"K0", b"17", b"0P", b"p0", b"v1",
];
const ALGORITHMS: &[u8] = b"TTADEHRSt0 ";
const MODES: &[u8] = b"BCDEGNSTVXYbdngc ";

/// A key field that the key type wants. Only a key block makes use of the LMK id.
pub fn whole(dice: &mut Dice, key_type: &[u8], place: Place, lmk: u8) -> Vec<u8> {
    if key_type == b"FFF" {
        let length = key_block_length(dice);
        return key_block(dice, place.own, length, lmk);
    }
    match dice.below(3) {
        0 => [b"U".to_vec(), vec![b'0'; 32]].concat(),
        1 => [b"U".to_vec(), dice.characters(32, HEX)].concat(),
        _ => [b"T".to_vec(), dice.characters(48, HEX)].concat(),
    }
}

fn key_block_length(dice: &mut Dice) -> usize {
    match dice.below(50) {
        0 => 512,
        1 => dice.between(17, 512),
        2..=15 => 16,
        _ => dice.between(17, 64),
    }
}

fn key_block(dice: &mut Dice, permitted: &PermittedUse, length: usize, lmk: u8) -> Vec<u8> {
    let usage = match permitted.usages {
        [only] => only,
        several => dice.pick(several),
    };
    let mode = dice.pick(permitted.modes);
    let mut field = vec![b'S', dice.pick(b"01")];
    field.extend(format!("{length:04}").bytes());
    field.extend(usage);
    field.extend([b'T', mode]);
    field.extend(dice.characters(5, PRINTABLE));
    field.extend([b'0', b'0' + lmk]);
    field.extend(dice.characters(length - 16, PRINTABLE));
    field
}

/// Puts two characters where a key block has its LMK id; a hex key has none.
pub fn put_lmk(field: &mut [u8], id: &[u8; 2]) {
    if let [b'S', ..] = field {
        put(field, 15, id);
    }
}

fn put(field: &mut [u8], first: usize, characters: &[u8]) {
    if let Some(place) = field.get_mut(first..first + characters.len()) {
        place.copy_from_slice(characters);
    }
}

/// One damage to a key field, in the way its letter suggests.
pub fn damage(dice: &mut Dice, key_type: &[u8], place: Place, field: &mut Vec<u8>) {
    if field.is_empty() {
        return;
    }
    match dice.below(14) {
        0 | 1 => field[0] = dice.pick(b"USTXRZustA0 \x00\xFF"),
        // the letter and the length of another key type, or the other hex length
        2 => *field = whole(dice, b"001", place, 0),
        3 => *field = whole(dice, b"FFF", place, 0),
        4 => {
            field.pop();
        }
        5 => field[1..].make_ascii_lowercase(),
        _ if key_type == b"FFF" => damage_key_block(dice, place, field),
        _ => damage_hex(dice, field),
    }
}

fn damage_hex(dice: &mut Dice, field: &mut Vec<u8>) {
    match dice.below(4) {
        0 => field.insert(1, dice.pick(HEX)),
        1 => {
            let place = dice.below(field.len());
            field.truncate(place);
        }
        _ => replace(dice, field, 1, 48, b"abcdefG@/:`g \x00\x19\xFF0F"),
    }
}

/// Places are counted from the letter: version 1, length 2 to 5, usage 6-7, algorithm 8, mode 9,
/// five bytes that are not judged, LMK id 15-16.
fn damage_key_block(dice: &mut Dice, place: Place, field: &mut Vec<u8>) {
    match dice.below(17) {
        0 => replace(dice, field, 1, 1, b"2Dd/:\x00S"),
        1 => replace(dice, field, 2, 5, b"A :/\x000123456789"),
        2..=4 => wrong_length(dice, field),
        5 => replace(dice, field, 6, 7, b"PV0127pvK\x7F"),
        6 => put(field, 6, dice.pick::<&[u8; 2]>(&USAGES)),
        7 => replace(dice, field, 8, 8, ALGORITHMS),
        8 => replace(dice, field, 9, 9, MODES),
        9 => any_use(dice, field),
        10 => *field = of_other_place(dice, place),
        11 => replace(dice, field, 10, 14, b"\x00\x1F\x20\x7E\x7F\x80\xFF\x19"),
        12 => replace(dice, field, 15, 15, b"019A/ "),
        13 => replace(dice, field, 16, 16, b"0123456789A:/ "),
        14 | 15 => replace(dice, field, 17, 512, b"\x00\x1F\x20\x7E\x7F\x80\xFF\x19"),
        _ => {
            let place = dice.below(field.len());
            field.truncate(place);
        }
    }
}

/// One character between two places, as far as the field reaches.
fn replace(dice: &mut Dice, field: &mut [u8], first: usize, last: usize, alphabet: &[u8]) {
    let last = last.min(field.len().saturating_sub(1));
    if first <= last {
        let place = dice.between(first, last);
        field[place] = dice.pick(alphabet);
    }
}

fn any_use(dice: &mut Dice, field: &mut [u8]) {
    let [first, second] = *dice.pick(&USAGES);
    put(field, 6, &[first, second, dice.pick(ALGORITHMS), dice.pick(MODES)]);
}

/// The PVK's key block where the PIN key's belongs, or the other way about.
fn of_other_place(dice: &mut Dice, place: Place) -> Vec<u8> {
    let Place { own, other } = place;
    whole(dice, b"FFF", Place { own: other, other: own }, 0)
}

/// A length around its limits; the field itself follows in half of the cases.
fn wrong_length(dice: &mut Dice, field: &mut Vec<u8>) {
    let length = dice.pick(&[0, 4, 5, 15, 15, 16, 17, 512, 513, 513, 999, 5120, 9999]);
    put(field, 2, format!("{length:04}").as_bytes());
    if dice.chance(50) && length < 600 {
        field.resize(1 + length, b'0');
    }
}
