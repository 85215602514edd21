//! Offsets presented to a verdict, whole and damaged.

use super::dice::Dice;
use super::parts;
use crate::settings::Settings;

/// What an offset is made of, as `crate::offset` takes it.
#[derive(Clone, Copy)]
pub struct Makings<'a> {
    pub variable: u64,
    pub format: u64,
    pub check: u64,
    pub block: &'a [u8],
    pub account: &'a [u8],
    pub table: &'a [u8],
    pub enciphered: &'a [u8],
}

impl Makings<'_> {
    /// The offset that a verdict accepts; nothing but F where there is none.
    pub fn right(self) -> Vec<u8> {
        let settings = Settings::of_face(0, 0, self.variable as u8);
        let (format, check) = (self.format as u32, self.check as u32);
        let [block, account] = [self.block, self.account];
        let [table, enciphered] = [self.table, self.enciphered];
        let mut offset = vec![b'F'; 12];
        crate::offset(settings, format, check, block, account, table, enciphered, &mut offset);
        offset
    }

    /// As many digits as the right offset has, but the first of the PIN's where the last belong.
    pub fn cut_from_the_left(self) -> Vec<u8> {
        let digits = count_of_digits(&self.right());
        let mut offset = Makings { variable: 1, ..self }.right();
        offset[digits..].fill(b'F');
        offset
    }
}

pub fn count_of_digits(offset: &[u8]) -> usize {
    offset.iter().take_while(|character| character.is_ascii_digit()).count()
}

/// Not "4 to 12 digits, then only F".
pub fn damage_form(dice: &mut Dice, offset: &mut Vec<u8>) {
    match dice.below(6) {
        0 => parts::damage_length(dice, offset),
        1 => {
            let digits = dice.below(4);
            offset.iter_mut().skip(digits).for_each(|character| *character = b'F');
        }
        2 => offset.make_ascii_lowercase(),
        3 => replace_one(dice, offset, b"F"),
        4 => replace_one(dice, offset, b"0123456789"),
        _ => replace_one(dice, offset, b"AEGf :/\x00\xFF\x06\xB5"),
    }
}

fn replace_one(dice: &mut Dice, run: &mut [u8], alphabet: &[u8]) {
    if !run.is_empty() {
        let place = dice.below(run.len());
        run[place] = dice.pick(alphabet);
    }
}

/// One digit less or more, or any other count.
pub fn damage_count(dice: &mut Dice, offset: &mut [u8]) {
    let own = count_of_digits(offset);
    let count = match dice.below(3) {
        0 => own + 1,
        1 => own.saturating_sub(1),
        _ => dice.between(4, 12),
    };
    set_count(dice, offset, count);
}

/// Digits are dropped at the end, or drawn where there are none yet.
pub fn set_count(dice: &mut Dice, offset: &mut [u8], count: usize) {
    let own = count_of_digits(offset);
    for (place, character) in offset.iter_mut().enumerate() {
        if place >= count {
            *character = b'F';
        } else if place >= own {
            *character = dice.pick(parts::DIGITS);
        }
    }
}

/// An offset of the same count that is most likely another one.
pub fn damage_digit(dice: &mut Dice, offset: &mut [u8]) {
    let own = count_of_digits(offset);
    match dice.below(3) {
        0 => offset[..own].rotate_left(usize::from(own > 0)),
        1 => offset[..own].iter_mut().for_each(|digit| *digit = b'0' + (b'9' + 1 - *digit) % 10),
        _ => replace_one(dice, &mut offset[..own], parts::DIGITS),
    }
}
