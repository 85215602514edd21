//! Damage to the bytes of a command that knows nothing of its fields but where they end.

use super::dice::Dice;

/// Those that mean something somewhere in a command.
pub const CHARACTERS: &[u8] = b"0123456789ABCDEFNPSTUV;%\x19";

/// One field is cut short or has a character too many. The borders are where each field ends; a
/// field that the command lacks has no length.
pub fn cut_at_a_field(dice: &mut Dice, borders: &[usize], command: &mut Vec<u8>) {
    let (first, end) = field(dice, borders);
    match dice.below(5) {
        0 => command.truncate(dice.between(first, end)),
        1 => command.truncate(end - 1),
        2 => {
            command.remove(end - 1);
        }
        3 => {
            command.remove(dice.between(first, end - 1));
        }
        // a character of the field's own kind, so that only the length is wrong
        _ => command.insert(end, command[end - 1]),
    }
}

/// Where a field that the command has begins and ends.
fn field(dice: &mut Dice, borders: &[usize]) -> (usize, usize) {
    loop {
        let place = dice.below(borders.len());
        let first = if place == 0 { 0 } else { borders[place - 1] };
        if first < borders[place] {
            return (first, borders[place]);
        }
    }
}

/// One byte anywhere becomes another, often a near one.
pub fn change_one(dice: &mut Dice, command: &mut [u8]) {
    let place = dice.below(command.len());
    let own = command[place];
    command[place] = match dice.below(4) {
        0 => own.wrapping_add(1),
        1 => own.wrapping_sub(1),
        2 => own ^ 1 << dice.below(8),
        _ => own.wrapping_add(dice.between(1, 255) as u8),
    };
}

/// Bytes that nobody made: all of them, or those behind a command code that is right.
pub fn scatter(dice: &mut Dice, header: usize, command: &mut Vec<u8>) {
    match dice.below(5) {
        0 => {
            let length = dice.below(300);
            *command = dice.bytes(length);
        }
        1 => {
            let length = dice.below(300);
            command.truncate(header + 2);
            command.extend(dice.bytes(length));
        }
        2 => {
            let length = dice.below(300);
            command.truncate(header + 2);
            command.extend(dice.characters(length, CHARACTERS));
        }
        3 => {
            let place = dice.below(command.len() + 1);
            command.insert(place, dice.byte());
        }
        _ => {
            let place = dice.below(command.len());
            let other = dice.below(command.len());
            command.swap(place, other);
        }
    }
}
