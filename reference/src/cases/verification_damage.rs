//! Damage to what only the verifying commands have, DA and EA.

use super::dice::Dice;
use super::draft::{number_of, Draft};
use super::keys::{self, Place};
use super::presented;
use super::weak::WeakList;
use crate::command::COMMANDS;

impl Draft {
    /// The code of a command that is not built, or of another that is.
    pub fn other_code(&self, dice: &mut Dice) -> Vec<u8> {
        let codes: [&[u8]; 14] = [
            b"DB", b"EB", b"DC", b"EC", b"CA", b"FA", b"D@", b"E@", b"da", b"ea", b"Da", b"eA",
            b"AD", b"AE",
        ];
        let first = self.command.code[0];
        match dice.below(12) {
            0..=6 => dice.pick(&codes).to_vec(),
            7 => dice.pick(&[b"DA", b"EA"]).to_vec(),
            8 => b"BK".to_vec(),
            9 => vec![first, 0xFF],
            10 => vec![first, dice.byte()],
            _ => dice.bytes(2),
        }
    }

    /// Anything but `12`: other lengths, no digits, a character too few or too many.
    pub fn damage_maximum(&mut self, dice: &mut Dice) {
        let maxima: [&[u8]; 14] = [
            b"11", b"13", b"00", b"04", b"21", b"99", b"1 ", b" 2", b"1B", b"\x012", b"1\xB2",
            b"1", b"", b"012",
        ];
        self.maximum = dice.pick(&maxima).to_vec();
    }

    /// Malformed, of another count, another one, or with a weak list behind it: that is left over.
    pub fn damage_offset(&mut self, dice: &mut Dice) {
        match dice.below(8) {
            0..=2 => presented::damage_form(dice, &mut self.offset),
            3 | 4 => presented::damage_count(dice, &mut self.offset),
            5 | 6 => self.put_other_offset(dice),
            _ => {
                let weak = WeakList::near(dice, &self.pin).field();
                self.lmk.splice(0..0, weak);
            }
        }
    }

    /// An offset of the right count that the PIN most likely does not fit.
    pub fn put_other_offset(&mut self, dice: &mut Dice) {
        match dice.below(4) {
            0 => self.offset = self.makings().cut_from_the_left(),
            _ => presented::damage_digit(dice, &mut self.offset),
        }
    }

    /// In half of the cases the offset has as many digits as a new check length says.
    pub fn let_the_offset_follow(&mut self, dice: &mut Dice) {
        if dice.chance(50) {
            let check = number_of(&self.check) as usize;
            presented::set_count(dice, &mut self.offset, check);
        }
    }

    /// Key blocks as any of the commands permits them, which this one may or may not do.
    pub fn borrow_keys(&mut self, dice: &mut Dice) {
        let (lender, lmk) = (dice.pick(&COMMANDS), dice.below(10) as u8);
        self.pin_key = keys::whole(dice, b"FFF", Place::pin_key(lender), lmk);
        self.pvk = keys::whole(dice, b"FFF", Place::pvk(lender), lmk);
        self.lmk.clear();
    }

    /// In half of the cases one of the keys has no LMK id.
    pub fn put_hex_key_beside_key_block(&mut self, dice: &mut Dice) {
        match dice.below(4) {
            0 => self.pin_key = keys::whole(dice, b"001", Place::pin_key(self.command), 0),
            1 => self.pvk = keys::whole(dice, b"001", Place::pvk(self.command), 0),
            _ => {}
        }
    }
}
