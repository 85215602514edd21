//! Cases for validation blocks, natural PINs, offsets, PVVs and the two verdicts.

use super::case::{Call, Case};
use super::dice::Dice;
use super::parts;
use super::presented::{self, Makings};
use super::validation;

pub const CALLS: [Call; 9] = [
    Call::ValidationBlock,
    Call::NaturalPin,
    Call::Offset,
    Call::OffsetOfDigits,
    Call::Differences,
    Call::OffsetVerdict,
    Call::PvvInput,
    Call::Pvv,
    Call::PvvVerdict,
];

/// Ways to damage a request. Some leave it acceptable now and then.
#[derive(Clone, Copy)]
enum Damage {
    Output,
    Account,
    Validation,
    Length,
    TableCharacter,
    TableLength,
    EncipheredLength,
    UnknownFormat,
    UnbuiltFormat,
    BlockLength,
    BlockContent,
    CheckOutside,
    CheckAny,
    CheckTooLong,
    PinLength,
    PinDigit,
    NaturalLength,
    NaturalDigit,
    OffsetForm,
    OffsetCount,
    OffsetDigit,
    KeyIndex,
    PvvForm,
    PvvDigit,
}

/// Everything any of these calls may take, whole at first.
struct Draft {
    call: Call,
    settings: [u64; 3],
    format: u64,
    check: u64,
    index: u64,
    length: u64,
    pin: Vec<u8>,
    natural: Vec<u8>,
    block: Vec<u8>,
    account: Vec<u8>,
    table: Vec<u8>,
    enciphered: Vec<u8>,
    validation: Vec<u8>,
    offset: Vec<u8>,
    pvv: Vec<u8>,
    out: Option<Vec<u8>>,
}

pub fn case(dice: &mut Dice) -> Case {
    let call = dice.pick(&CALLS);
    case_of(dice, call)
}

pub fn case_of(dice: &mut Dice, call: Call) -> Case {
    let mut draft = Draft::whole(dice, call);
    let ways = ways_to_damage(call);
    if dice.chance(52) {
        draft.damage(dice, ways);
        if dice.chance(25) {
            draft.damage(dice, ways);
        }
    }
    draft.into_case()
}

#[rustfmt::skip] // one line per kind of damage would hide the calls
fn ways_to_damage(call: Call) -> &'static [Damage] {
    use Damage::*;
    match call {
        Call::ValidationBlock => &[Output, Account, Validation, Validation, Validation],
        Call::NaturalPin => &[
            Output, TableCharacter, TableLength, EncipheredLength, Length, Length,
        ],
        Call::Offset => &[
            Output, Account, TableCharacter, TableLength, EncipheredLength, UnknownFormat,
            UnbuiltFormat, BlockLength, BlockContent, BlockContent, BlockContent, CheckOutside,
            CheckAny, CheckTooLong,
        ],
        Call::OffsetOfDigits | Call::Differences => &[
            Output, CheckOutside, CheckAny, CheckTooLong, PinLength, PinDigit, NaturalLength,
            NaturalLength, NaturalDigit,
        ],
        Call::OffsetVerdict => &[
            Account, TableCharacter, TableLength, EncipheredLength, UnknownFormat, UnbuiltFormat,
            BlockLength, BlockContent, BlockContent, BlockContent, CheckOutside, CheckAny,
            CheckTooLong, OffsetForm, OffsetForm, OffsetCount, OffsetDigit, OffsetDigit,
        ],
        Call::PvvInput => &[
            Output, Account, UnknownFormat, UnbuiltFormat, BlockLength, BlockContent,
            BlockContent, BlockContent, KeyIndex,
        ],
        Call::Pvv => &[Output, EncipheredLength],
        _ => &[
            Account, UnknownFormat, UnbuiltFormat, BlockLength, BlockContent, BlockContent,
            BlockContent, EncipheredLength, KeyIndex, PvvForm, PvvForm, PvvDigit, PvvDigit,
        ],
    }
}

impl Draft {
    fn whole(dice: &mut Dice, call: Call) -> Draft {
        let settings = parts::lower_settings(dice);
        let format = dice.pick(&parts::BUILT_CODES);
        let pin = parts::pin(dice);
        let account = parts::account(dice);
        let longest = if settings[2] != 0 { 12 } else { pin.len() };
        let mut draft = Draft {
            call,
            settings,
            format,
            check: dice.between(4, longest) as u64,
            index: dice.below(7) as u64,
            length: dice.between(4, 12) as u64,
            natural: parts::digit_values(dice, pin.len()),
            block: parts::block(dice, format, &pin, &account),
            table: parts::table(dice),
            enciphered: parts::enciphered(dice),
            validation: validation::whole(dice),
            offset: vec![],
            pvv: vec![b'0'; 4],
            out: parts::enough_out(dice, call),
            pin,
            account,
        };
        draft.make_right_answers();
        draft
    }

    /// The offset and the PVV that the verdicts accept.
    fn make_right_answers(&mut self) {
        let makings = Makings {
            variable: self.settings[2],
            format: self.format,
            check: self.check,
            block: &self.block,
            account: &self.account,
            table: &self.table,
            enciphered: &self.enciphered,
        };
        self.offset = makings.right();
        crate::pvv(&self.enciphered, &mut self.pvv);
    }

    fn damage(&mut self, dice: &mut Dice, ways: &[Damage]) {
        match dice.pick(ways) {
            Damage::Output => self.out = parts::short_out(dice, self.call),
            Damage::Account => parts::damage_digit_run(dice, &mut self.account),
            Damage::Validation => validation::damage(dice, &mut self.validation),
            Damage::Length => self.length = length_outside(dice),
            Damage::TableCharacter => parts::damage_digit_character(dice, &mut self.table),
            Damage::TableLength => parts::damage_length(dice, &mut self.table),
            Damage::EncipheredLength => parts::damage_length(dice, &mut self.enciphered),
            Damage::UnknownFormat => self.format = parts::unknown_code(dice),
            Damage::UnbuiltFormat => self.format = dice.pick(&parts::UNBUILT_CODES),
            Damage::BlockLength => parts::damage_length(dice, &mut self.block),
            Damage::BlockContent => {
                parts::damage_block(dice, self.format, &self.account, &mut self.block)
            }
            Damage::CheckOutside => self.check = length_outside(dice),
            Damage::CheckAny => self.check = dice.between(4, 12) as u64,
            Damage::CheckTooLong => self.check_too_long(dice),
            digits => self.damage_digits(dice, digits),
        }
    }

    fn damage_digits(&mut self, dice: &mut Dice, way: Damage) {
        match way {
            Damage::PinLength => self.pin_of_another_length(dice),
            Damage::PinDigit => parts::damage_digit_value(dice, &mut self.pin),
            Damage::NaturalLength => parts::damage_digit_count(dice, &mut self.natural),
            Damage::NaturalDigit => parts::damage_digit_value(dice, &mut self.natural),
            Damage::OffsetForm => presented::damage_form(dice, &mut self.offset),
            Damage::OffsetCount => presented::damage_count(dice, &mut self.offset),
            Damage::OffsetDigit => presented::damage_digit(dice, &mut self.offset),
            Damage::KeyIndex => self.index = index_outside(dice),
            Damage::PvvForm => parts::damage_digit_run(dice, &mut self.pvv),
            _ => self.damage_pvv_digit(dice),
        }
    }

    /// "check length longer than the PIN", which only a fixed length can have.
    fn check_too_long(&mut self, dice: &mut Dice) {
        self.settings[2] = 0;
        self.check = dice.between(self.pin.len().min(11) + 1, 12) as u64;
    }

    /// The natural PIN follows in half of the cases, so that the PIN's own length is judged.
    fn pin_of_another_length(&mut self, dice: &mut Dice) {
        parts::damage_digit_count(dice, &mut self.pin);
        if dice.chance(50) {
            self.natural = parts::digit_values(dice, self.pin.len());
        }
    }

    /// A PVV of another digit, or one that takes the letters in the first scan as they come.
    fn damage_pvv_digit(&mut self, dice: &mut Dice) {
        if dice.chance(50) || self.enciphered.len() < 2 {
            let place = dice.below(self.pvv.len().max(1));
            self.pvv.resize(self.pvv.len().max(1), b'0');
            self.pvv[place] = dice.pick(parts::DIGITS);
            return;
        }
        let pair = [self.enciphered[0], self.enciphered[1]];
        let nibbles = pair.iter().flat_map(|byte| [byte >> 4, byte & 0xF]);
        self.pvv = nibbles.map(|nibble| b'0' + nibble % 10).collect();
    }

    fn into_case(self) -> Case {
        let [header, restricted, variable] = self.settings;
        let with_settings = |rest: &[u64]| [&[header, restricted, variable], rest].concat();
        let (numbers, runs) = match self.call {
            Call::ValidationBlock => (vec![], vec![self.validation, self.account]),
            Call::NaturalPin => (vec![self.length], vec![self.table, self.enciphered]),
            Call::OffsetOfDigits | Call::Differences => {
                (with_settings(&[self.check]), vec![self.pin, self.natural])
            }
            Call::Offset => (
                with_settings(&[self.format, self.check]),
                vec![self.block, self.account, self.table, self.enciphered],
            ),
            Call::OffsetVerdict => (
                with_settings(&[self.format, self.check]),
                vec![self.block, self.account, self.table, self.enciphered, self.offset],
            ),
            Call::Pvv => (vec![], vec![self.enciphered]),
            Call::PvvInput => (vec![self.format, self.index], vec![self.block, self.account]),
            _ => (
                vec![self.format, self.index],
                vec![self.block, self.account, self.enciphered, self.pvv],
            ),
        };
        Case { call: self.call, numbers, runs, out: self.out }
    }
}

/// A check length, or a natural PIN's length, outside 4 to 12.
fn length_outside(dice: &mut Dice) -> u64 {
    if dice.chance(60) {
        return dice.pick(&[0, 1, 2, 3, 3, 13, 13, 14, 15, 16, 17]);
    }
    dice.pick(&[20, 48, 52, 128, 255, 256 + 4, 65_536 + 8, 0x8000_0004, 0xFFFF_FFFC, 0xFFFF_FFFF])
}

/// A key index outside 0 to 6.
fn index_outside(dice: &mut Dice) -> u64 {
    dice.pick(&[7, 7, 8, 9, 10, 16, 48, 54, 255, 256, 256 + 3, 65_536, 0x8000_0000, 0xFFFF_FFFF])
}
