//! A command that is sealed under lab keys, and damage to what is judged behind its fields.

use super::case::Call;
use super::dice::Dice;
use super::draft::{two_digits, Draft};
use super::lab_keys;
use crate::command::Command;

/// How many kinds of damage there are.
pub const OF_LAB: usize = 38;

/// The lab keys in their order.
const PIN_KEY: usize = 0;
const PVK: usize = 1;

impl Draft {
    /// A command that the lab's answering call answers with 00; rarely its PIN is on the weak list
    /// by chance. The lengths of the keys go by nothing in it.
    pub fn sealed(dice: &mut Dice, command: &'static Command) -> Draft {
        let mut draft = Draft::whole(dice, Call::LabAnswer, command);
        draft.lab_keys = vec![lab_keys::whole(dice), lab_keys::whole(dice)];
        draft.seal();
        draft.encipher_validation();
        draft.offset = draft.makings().right();
        draft
    }

    /// The clear block goes into the command under the PIN key.
    fn seal(&mut self) {
        let mut sealed = [0; 8];
        let reply = crate::tdes_encipher(&self.lab_keys[PIN_KEY], &self.pin_block, &mut sealed);
        if reply.number == 0 {
            let characters = format!("{:016X}", u64::from_be_bytes(sealed));
            self.enciphered_pin_block = characters.into_bytes();
        }
    }

    /// The natural PIN is cut from the validation block under the PVK.
    fn encipher_validation(&mut self) {
        let mut block = [0; 8];
        crate::validation_block(&self.validation, &self.account, &mut block);
        self.enciphered = vec![0; 8];
        crate::tdes_encipher(&self.lab_keys[PVK], &block, &mut self.enciphered);
    }

    /// What the lab's answering call judges after the fields.
    pub fn damage_lab(&mut self, dice: &mut Dice) {
        match dice.below(OF_LAB) {
            0..=2 => self.spoil_parity(dice, PIN_KEY),
            3..=5 => self.spoil_parity(dice, PVK),
            6 => [PIN_KEY, PVK].into_iter().for_each(|key| self.spoil_parity(dice, key)),
            7..=9 => self.damage_key_length(dice, PIN_KEY),
            10..=12 => self.damage_key_length(dice, PVK),
            13 => [PIN_KEY, PVK].into_iter().for_each(|key| self.damage_key_length(dice, key)),
            14 => self.length_and_parity(dice, PIN_KEY, PVK),
            15 => self.length_and_parity(dice, PVK, PIN_KEY),
            16 => self.lab_keys[PIN_KEY] = lab_keys::whole(dice),
            17 => self.lab_keys[PVK] = lab_keys::whole(dice),
            18 => self.lab_keys.reverse(),
            19 => self.write_as_three_keys(dice),
            20..=22 => self.check_too_long(dice),
            23 => self.check = two_digits(dice.between(4, 12) as u64),
            24..=26 => self.spoil_the_pin(dice),
            _ => {
                self.damage_block(dice);
                self.seal();
            }
        }
    }

    fn spoil_parity(&mut self, dice: &mut Dice, key: usize) {
        lab_keys::spoil_parity(dice, &mut self.lab_keys[key]);
    }

    /// In half of the cases its parity is bad besides, which is judged later.
    fn damage_key_length(&mut self, dice: &mut Dice, key: usize) {
        lab_keys::damage_length(dice, &mut self.lab_keys[key]);
        if dice.chance(50) {
            self.spoil_parity(dice, key);
        }
    }

    /// One key of neither length beside another of bad parity.
    fn length_and_parity(&mut self, dice: &mut Dice, of_length: usize, of_parity: usize) {
        self.damage_key_length(dice, of_length);
        self.spoil_parity(dice, of_parity);
    }

    /// Two keys written as three cipher alike.
    fn write_as_three_keys(&mut self, dice: &mut Dice) {
        let key = &mut self.lab_keys[dice.below(2)];
        if key.len() == 16 {
            key.extend_from_within(..8);
        }
    }
}
