//! A command in its fields, and what is handed over with it.

use super::case::{Call, Case};
use super::dice::Dice;
use super::keys::{self, Place};
use super::parts;
use super::presented::Makings;
use super::validation::{self, HEX};
use super::weak::WeakList;
use crate::command::{Command, Purpose};

/// What a command's optional fields begin with.
pub const LMK_MARK: u8 = b'%';
pub const TRAILER_MARK: u8 = 0x19;

/// Header, code and twelve fields.
const PARTS: usize = 14;

pub struct Draft {
    pub call: Call,
    /// The command whose fields these are, whatever its code becomes.
    pub command: &'static Command,
    /// Header, restricted, variable.
    pub settings: [u64; 3],
    /// Of the PIN key, of the PVK; 0 is bad.
    pub parities: [u64; 2],
    pub header: Vec<u8>,
    pub code: Vec<u8>,
    /// BK's alone, as the weak list is.
    pub key_type: Vec<u8>,
    pub pin_key: Vec<u8>,
    pub pvk: Vec<u8>,
    /// The maximum PIN length: not BK's, nor is the offset.
    pub maximum: Vec<u8>,
    pub enciphered_pin_block: Vec<u8>,
    pub format: Vec<u8>,
    pub check: Vec<u8>,
    pub account: Vec<u8>,
    pub table: Vec<u8>,
    pub validation: Vec<u8>,
    pub weak: Option<WeakList>,
    pub offset: Vec<u8>,
    pub lmk: Vec<u8>,
    pub trailer: Vec<u8>,
    /// The PIN in the clear block, as values.
    pub pin: Vec<u8>,
    pub pin_block: Vec<u8>,
    pub enciphered: Vec<u8>,
    /// The PIN key and the PVK in the clear, where the lab answers; else none.
    pub lab_keys: Vec<Vec<u8>>,
    pub out: Option<Vec<u8>>,
}

impl Draft {
    /// A command that every call answers with 00 but the lab's, whose keys it lacks; rarely its PIN is on the weak list by chance.
    pub fn whole(dice: &mut Dice, call: Call, command: &'static Command) -> Draft {
        let settings = settings(dice);
        let format = dice.pick(allowed_formats(command, settings));
        let (pin, account) = (parts::pin(dice), parts::account(dice));
        let [key_type, pvk_type] = key_types(dice, command);
        let lmk = dice.below(10) as u8;
        let longest_check = if settings[2] != 0 { 12 } else { pin.len() };
        let mut draft = Draft {
            call,
            command,
            settings,
            parities: [good_parity(dice), good_parity(dice)],
            header: printable(dice, settings[0] as usize),
            code: command.code.to_vec(),
            pin_key: keys::whole(dice, &key_type, Place::pin_key(command), lmk),
            pvk: keys::whole(dice, &pvk_type, Place::pvk(command), lmk),
            maximum: b"12".to_vec(),
            enciphered_pin_block: dice.characters(16, HEX),
            format: two_digits(format),
            check: two_digits(dice.between(4, longest_check) as u64),
            table: parts::table(dice),
            validation: validation::whole(dice),
            weak: weak_list(dice, command, &pin),
            offset: vec![],
            lmk: if dice.chance(40) { vec![LMK_MARK, b'0', b'0' + lmk] } else { vec![] },
            trailer: if dice.chance(50) { trailer(dice) } else { vec![] },
            pin_block: parts::block(dice, format, &pin, &account),
            enciphered: parts::enciphered(dice),
            lab_keys: vec![],
            out: parts::enough_out(dice, call),
            key_type,
            account,
            pin,
        };
        draft.offset = draft.makings().right();
        draft
    }

    /// What the right offset is made of.
    pub fn makings(&self) -> Makings<'_> {
        Makings {
            variable: self.settings[2],
            format: number_of(&self.format),
            check: number_of(&self.check),
            block: &self.pin_block,
            account: &self.account,
            table: &self.table,
            enciphered: &self.enciphered,
        }
    }

    /// Header, code and the twelve fields, in their order.
    pub fn fields(&self) -> [Vec<u8>; PARTS] {
        let (first_three, tenth) = match self.command.purpose {
            Purpose::MakeOffset => {
                let weak = self.weak.as_ref().map(WeakList::field).unwrap_or_default();
                ([&self.key_type, &self.pin_key, &self.pvk], weak)
            }
            Purpose::VerifyOffset => {
                ([&self.pin_key, &self.pvk, &self.maximum], self.offset.clone())
            }
        };
        let [first, second, third] = first_three;
        [
            &self.header,
            &self.code,
            first,
            second,
            third,
            &self.enciphered_pin_block,
            &self.format,
            &self.check,
            &self.account,
            &self.table,
            &self.validation,
            &tenth,
            &self.lmk,
            &self.trailer,
        ]
        .map(Vec::clone)
    }

    pub fn length(&self) -> usize {
        self.fields().iter().map(Vec::len).sum()
    }

    /// Where each of them ends.
    pub fn borders(&self) -> [usize; PARTS] {
        let mut end = 0;
        self.fields().map(|field| {
            end += field.len();
            end
        })
    }

    pub fn into_case(self) -> Case {
        let mut numbers = self.settings.to_vec();
        let mut runs = vec![self.fields().concat()];
        if self.call == Call::Answer {
            numbers.extend(self.parities);
            runs.extend([self.pin_block, self.enciphered]);
        }
        runs.extend(self.lab_keys);
        Case { call: self.call, numbers, runs, out: self.out }
    }
}

pub fn two_digits(number: u64) -> Vec<u8> {
    format!("{number:02}").into_bytes()
}

/// Two digits as a number; what is no digit counts as one, so that damage does not matter.
pub fn number_of(digits: &[u8]) -> u64 {
    digits.iter().fold(0, |number, &digit| 10 * number + u64::from(digit & 0xF))
}

/// Header, restricted, variable.
fn settings(dice: &mut Dice) -> [u64; 3] {
    let header = if dice.chance(30) { 4 } else { dice.below(17) };
    [header as u64, flag(dice), flag(dice)]
}

/// The restricted setting is BK's affair.
fn allowed_formats(command: &Command, settings: [u64; 3]) -> &'static [u64] {
    match command.purpose {
        Purpose::MakeOffset if settings[1] != 0 => &[1, 47],
        _ => &parts::BUILT_CODES,
    }
}

/// Of the PIN key and of the PVK: BK has one for both, elsewhere each key has its own letter.
fn key_types(dice: &mut Dice, command: &Command) -> [Vec<u8>; 2] {
    match command.purpose {
        Purpose::MakeOffset => {
            let both = dice.pick(&[b"001", b"002", b"FFF", b"FFF"]).to_vec();
            [both.clone(), both]
        }
        Purpose::VerifyOffset => [(); 2].map(|()| dice.pick(&[b"001", b"FFF"]).to_vec()),
    }
}

fn weak_list(dice: &mut Dice, command: &Command, pin: &[u8]) -> Option<WeakList> {
    let drawn = command.purpose == Purpose::MakeOffset && dice.chance(45);
    drawn.then(|| WeakList::near(dice, pin))
}

/// Any byte but 0 is Yes.
pub fn yes(dice: &mut Dice) -> u64 {
    match dice.below(3) {
        0 => 1,
        1 => dice.pick(&[2, 128, 254, 255]),
        _ => dice.between(1, 255) as u64,
    }
}

fn flag(dice: &mut Dice) -> u64 {
    if dice.chance(50) {
        0
    } else {
        yes(dice)
    }
}

/// A parity answer is a flag too: any byte but 0 is good.
fn good_parity(dice: &mut Dice) -> u64 {
    yes(dice)
}

pub fn printable(dice: &mut Dice, length: usize) -> Vec<u8> {
    (0..length).map(|_| dice.between(0x20, 0x7E) as u8).collect()
}

/// A trailer with its mark. Some look as if other optional fields stood in it: that is text.
fn trailer(dice: &mut Dice) -> Vec<u8> {
    let text = match dice.below(6) {
        0 => vec![],
        1 => printable(dice, 32),
        2 => dice.characters(32, b";%0123"),
        3 => dice.pick(&[&b";01041234"[..], b"%10", b";", b"%", b";0", b" ", b"~"]).to_vec(),
        _ => {
            let length = dice.between(1, 31);
            printable(dice, length)
        }
    };
    [vec![TRAILER_MARK], text].concat()
}
