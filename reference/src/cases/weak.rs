//! Weak PIN lists, whole and damaged.

use super::dice::Dice;
use super::parts::{self, DIGITS};

/// Field 10 behind its mark, part by part.
pub struct WeakList {
    count: Vec<u8>,
    length: Vec<u8>,
    list: Vec<u8>,
}

fn two_digits(number: usize) -> Vec<u8> {
    format!("{number:02}").into_bytes()
}

impl WeakList {
    /// A list that most likely does not hold the PIN, but often a near miss of it.
    pub fn near(dice: &mut Dice, pin: &[u8]) -> WeakList {
        let count = match dice.below(20) {
            0 | 1 => 0,
            2..=9 => 1,
            10 => 99,
            _ => dice.between(2, 8),
        };
        if count == 0 {
            return WeakList { count: b"00".to_vec(), length: vec![], list: vec![] };
        }
        let length = if dice.chance(40) { pin.len() } else { dice.between(4, 12) };
        let mut list = dice.characters(count * length, DIGITS);
        put_near_miss(dice, &mut list, length, &characters(pin));
        WeakList { count: two_digits(count), length: two_digits(length), list }
    }

    /// A list that holds the PIN, first, last or between.
    pub fn with_pin(dice: &mut Dice, pin: &[u8]) -> WeakList {
        let length = pin.len();
        let count = dice.pick(&[1, 1, 2, 3, 5, 99]);
        let mut list = dice.characters(count * length, DIGITS);
        let entry = dice.pick(&[0, count - 1, count / 2]);
        list[entry * length..(entry + 1) * length].copy_from_slice(&characters(pin));
        WeakList { count: two_digits(count), length: two_digits(length), list }
    }

    pub fn damage(&mut self, dice: &mut Dice) {
        match dice.below(8) {
            0 => parts::damage_digit_character(dice, &mut self.count),
            1 => self.count = two_digits(dice.below(100)),
            2 => self.length = two_digits(dice.pick(&[0, 1, 2, 3, 3, 4, 12, 13, 13, 14, 99])),
            3 => parts::damage_digit_character(dice, &mut self.length),
            4 => parts::damage_digit_character(dice, &mut self.list),
            5 => {
                self.list.pop();
            }
            6 => self.list.push(dice.pick(DIGITS)),
            _ => self.cut(dice),
        }
    }

    /// The command ends inside the count, the length or the list, as the last optional field.
    fn cut(&mut self, dice: &mut Dice) {
        match dice.below(3) {
            0 => {
                self.count.truncate(dice.below(2));
                self.length.clear();
                self.list.clear();
            }
            1 => {
                self.length.truncate(dice.below(2));
                self.list.clear();
            }
            _ => self.list.truncate(dice.below(self.list.len() + 1)),
        }
    }

    pub fn field(&self) -> Vec<u8> {
        [b";", &self.count[..], &self.length[..], &self.list[..]].concat()
    }
}

fn characters(pin: &[u8]) -> Vec<u8> {
    pin.iter().map(|digit| b'0' + digit).collect()
}

/// One entry that a careless comparison takes for the PIN.
fn put_near_miss(dice: &mut Dice, list: &mut [u8], length: usize, pin: &[u8]) {
    let entry = dice.below(list.len() / length) * length;
    if dice.chance(20) {
        put_between_entries(dice, list, pin);
    } else if length == pin.len() {
        put_all_but_one_digit(dice, &mut list[entry..entry + length], pin);
    } else {
        put_shared_part(dice, &mut list[entry..entry + length], pin);
    }
}

/// The PIN from the list's first or second digit on, over the borders of entries.
fn put_between_entries(dice: &mut Dice, list: &mut [u8], pin: &[u8]) {
    let first = dice.below(2);
    if let Some(place) = list.get_mut(first..first + pin.len()) {
        place.copy_from_slice(pin);
    }
}

/// Another PIN of the same length: its first, its last or any other digit is another one.
fn put_all_but_one_digit(dice: &mut Dice, entry: &mut [u8], pin: &[u8]) {
    entry.copy_from_slice(pin);
    let place = dice.pick(&[0, pin.len() - 1, pin.len() / 2]);
    entry[place] = b'0' + (entry[place] - b'0' + dice.between(1, 9) as u8) % 10;
}

/// The PIN's beginning or end as a shorter entry; a longer one that begins or ends with the PIN.
fn put_shared_part(dice: &mut Dice, entry: &mut [u8], pin: &[u8]) {
    let shared = entry.len().min(pin.len());
    let part = if dice.chance(50) { &pin[..shared] } else { &pin[pin.len() - shared..] };
    let first = if dice.chance(50) { 0 } else { entry.len() - shared };
    entry[first..first + shared].copy_from_slice(part);
}
