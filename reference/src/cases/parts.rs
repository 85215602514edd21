//! What the cases are put together from, whole and damaged.

use super::case::Call;
use super::dice::Dice;
use crate::account::Account;
use crate::block;
use crate::format::Format;
use crate::pin::Pin;

pub const DIGITS: &[u8] = b"0123456789";
pub const BUILT_CODES: [u64; 6] = [1, 3, 5, 34, 35, 47];
pub const UNBUILT_CODES: [u64; 3] = [41, 42, 48];

/// Codes outside the paper's list, also such as would be in it after a careless narrowing.
const UNKNOWN_CODES: [u64; 22] = [
    0,
    2,
    4,
    6,
    33,
    36,
    40,
    43,
    46,
    49,
    50,
    99,
    100,
    128,
    255,
    256 + 1,
    256 + 34,
    65_536 + 47,
    65_536 + 48,
    0x8000_0001,
    0xFFFF_FFFE,
    0xFFFF_FFFF,
];

/// Characters that a careless test takes for digits, and a few plain ones.
const NO_DIGITS: [u8; 14] =
    [b':', b'/', b'A', b'F', b'a', b' ', b'-', b'N', 0x00, 0x09, 0x10, 0x7F, 0xB0, 0xFF];

pub fn unknown_code(dice: &mut Dice) -> u64 {
    loop {
        let code = if dice.chance(70) {
            dice.pick(&UNKNOWN_CODES)
        } else if dice.chance(70) {
            dice.below(256) as u64
        } else {
            dice.word() & 0xFFFF_FFFF
        };
        if !BUILT_CODES.contains(&code) && !UNBUILT_CODES.contains(&code) {
            return code;
        }
    }
}

pub fn flag(dice: &mut Dice) -> u64 {
    if dice.chance(50) {
        0
    } else {
        dice.pick(&[1, 1, 2, 128, 255])
    }
}

/// Header, restricted and variable as a lower call may meet them; it ignores the header.
pub fn lower_settings(dice: &mut Dice) -> [u64; 3] {
    let header = match dice.below(4) {
        0 => 4,
        1 => dice.below(18) as u64,
        2 => dice.pick(&[u64::MAX, 1 << 63, 1 << 32, 17, 4097]),
        _ => dice.word(),
    };
    [header, flag(dice), flag(dice)]
}

/// PIN digits as values.
pub fn digit_values(dice: &mut Dice, length: usize) -> Vec<u8> {
    (0..length).map(|_| dice.below(10) as u8).collect()
}

/// A PIN of 4 to 12 digits.
pub fn pin(dice: &mut Dice) -> Vec<u8> {
    let length = dice.between(4, 12);
    digit_values(dice, length)
}

pub fn account(dice: &mut Dice) -> Vec<u8> {
    match dice.below(8) {
        0 => b"400000123456".to_vec(),
        1 => b"000000000000".to_vec(),
        2 => b"999999999999".to_vec(),
        _ => dice.characters(12, DIGITS),
    }
}

pub fn fill(dice: &mut Dice) -> Vec<u8> {
    match dice.below(6) {
        0 => vec![0; 8],
        1 => vec![0xFF; 8],
        _ => dice.bytes(8),
    }
}

pub const USUAL_TABLE: &[u8] = b"0123456789012345";

pub fn table(dice: &mut Dice) -> Vec<u8> {
    if dice.chance(25) {
        USUAL_TABLE.to_vec()
    } else {
        dice.characters(16, DIGITS)
    }
}

/// An enciphered block; a third of them is rich in letters, for the PVV's second scan.
pub fn enciphered(dice: &mut Dice) -> Vec<u8> {
    if dice.chance(66) {
        return dice.bytes(8);
    }
    let letters = dice.pick(&[75, 85, 95, 100]);
    let mut nibble = || match dice.chance(letters) {
        true => dice.between(10, 15) as u8,
        false => dice.below(10) as u8,
    };
    (0..8).map(|_| nibble() << 4 | nibble()).collect()
}

/// A buffer that is long enough for the call, most often not much longer; none for a verdict.
pub fn enough_out(dice: &mut Dice, call: Call) -> Option<Vec<u8>> {
    let need = call.need()?;
    let length = match dice.below(4) {
        0 => need,
        1 => need + 1,
        2 => dice.between(need, need + 8),
        _ => dice.between(need, 40.max(need + 8)),
    };
    Some(dice.bytes(length))
}

/// A buffer that is too short.
pub fn short_out(dice: &mut Dice, call: Call) -> Option<Vec<u8>> {
    let need = call.need()?;
    let length = if dice.chance(50) { need - 1 } else { dice.below(need) };
    Some(dice.bytes(length))
}

/// A well-formed block.
pub fn block(dice: &mut Dice, code: u64, pin: &[u8], account: &[u8]) -> Vec<u8> {
    let format = Format::of_code(code as u32).expect("a built format");
    let pin = Pin::handed_in(pin).expect("a PIN");
    let account = Account::of_characters(account).expect("an account");
    block::write(format, &pin, account, dice.word()).to_be_bytes().to_vec()
}

/// The run cut, or made longer: any length but its own.
pub fn damage_length(dice: &mut Dice, run: &mut Vec<u8>) {
    let own = run.len();
    let length = loop {
        let length = match dice.below(4) {
            0 => own.saturating_sub(1),
            1 => own + 1,
            2 => 0,
            _ => dice.below(21),
        };
        if length != own {
            break length;
        }
    };
    while run.len() < length {
        let repeated = if own > 0 && dice.chance(70) { run[run.len() % own] } else { dice.byte() };
        run.push(repeated);
    }
    run.truncate(length);
}

/// One character that is no digit, at any place.
pub fn damage_digit_character(dice: &mut Dice, run: &mut [u8]) {
    if run.is_empty() {
        return;
    }
    let place = dice.below(run.len());
    run[place] = if dice.chance(80) { dice.pick(&NO_DIGITS) } else { dice.byte() };
}

/// One digit value over 9, at any place.
pub fn damage_digit_value(dice: &mut Dice, values: &mut [u8]) {
    if !values.is_empty() {
        let place = dice.below(values.len());
        values[place] = dice.pick(&[10, 10, 11, 15, 16, 25, 48, 57, 128, 255]);
    }
}

/// Digit values of another count, 0 to 20.
pub fn damage_digit_count(dice: &mut Dice, values: &mut Vec<u8>) {
    let count = match dice.below(4) {
        0 => values.len().saturating_sub(1),
        1 => values.len() + 1,
        2 => dice.between(4, 12),
        _ => dice.pick(&[0, 1, 2, 3, 3, 13, 13, 14, 15, 16, 20]),
    };
    values.resize_with(count, || dice.below(10) as u8);
}

/// A field of digit characters, in length or alphabet.
pub fn damage_digit_run(dice: &mut Dice, run: &mut Vec<u8>) {
    if dice.chance(40) {
        damage_length(dice, run);
    } else {
        damage_digit_character(dice, run);
    }
}

/// Damages a block in its own format. Damage that leaves it readable is welcome too.
pub fn damage_block(dice: &mut Dice, code: u64, account: &[u8], run: &mut [u8]) {
    let Ok(format) = Format::of_code(code as u32) else { return };
    let Ok(account) = Account::of_characters(account) else { return };
    let Ok(bytes) = <[u8; 8]>::try_from(&*run) else { return };
    let mask = block::mask(format, account);
    let mut clear = u64::from_be_bytes(bytes) ^ mask;
    match format {
        Format::F03 => damage_clear_03(dice, &mut clear),
        _ => damage_clear(dice, &mut clear),
    }
    run.copy_from_slice(&(clear ^ mask).to_be_bytes());
}

fn set_nibble(clear: &mut u64, place: usize, value: usize) {
    let shift = 60 - 4 * place;
    *clear = *clear & !(0xF << shift) | (value as u64) << shift;
}

/// A block with control and length.
fn damage_clear(dice: &mut Dice, clear: &mut u64) {
    let length = usize::from(block::nibble(*clear, 1)).clamp(1, 13);
    match dice.below(8) {
        0 => set_nibble(clear, 0, dice.below(16)),
        1 | 2 => set_nibble(clear, 1, dice.pick(&[0, 1, 2, 3, 3, 13, 13, 14, 15])),
        3 => set_nibble(clear, 1, dice.below(16)),
        4 => set_nibble(clear, dice.between(2, length + 1), dice.between(10, 15)),
        5 => set_nibble(clear, dice.between(length + 2, 15), dice.below(16)),
        6 => set_nibble(clear, dice.below(16), dice.below(16)),
        _ => *clear = dice.word(),
    }
}

/// Counts of digits before a first F that leave it a place behind; 24 in format 03.
const WRONG_COUNTS: &[usize] = &[0, 1, 2, 3, 3, 13, 13, 14];

/// Format 03: too few or too many digits, none but digits, letters before the first F, rubbish
/// behind it. Several of these come together too, so that the order of judging decides.
fn damage_clear_03(dice: &mut Dice, clear: &mut u64) {
    match dice.below(16) {
        0 | 1 => put_count(dice, clear, &[0, 1, 2, 3, 3, 12, 13, 13, 14, 15, 16]),
        2 => put_letter(dice, clear),
        3 => {
            put_count(dice, clear, &[16]);
            set_nibble(clear, dice.below(16), dice.between(10, 15));
        }
        4 => set_nibble(clear, dice.below(16), dice.below(16)),
        5 => *clear = dice.word(),
        6..=9 => put_rubbish(dice, clear),
        10..=13 => {
            put_count(dice, clear, WRONG_COUNTS);
            put_rubbish(dice, clear);
        }
        _ => {
            put_letter(dice, clear);
            put_rubbish(dice, clear);
        }
    }
}

/// Where the first F stands; 16 where there is none.
fn first_f(clear: u64) -> usize {
    (0..16).position(|place| block::nibble(clear, place) == 0xF).unwrap_or(16)
}

/// As many digits as one of the counts says, drawn anew, and nothing but F behind them.
fn put_count(dice: &mut Dice, clear: &mut u64, counts: &[usize]) {
    let count = dice.pick(counts);
    *clear = u64::MAX;
    for place in 0..count {
        set_nibble(clear, place, dice.below(10));
    }
}

/// A letter A to E before the first F, in half of the cases with a wrong count besides.
fn put_letter(dice: &mut Dice, clear: &mut u64) {
    if dice.chance(50) {
        put_count(dice, clear, WRONG_COUNTS);
    }
    let end = first_f(*clear).max(1);
    set_nibble(clear, dice.below(end), dice.between(10, 14));
}

/// Behind the first F, if anything stands there: one nibble that is not F, or all of them drawn
/// anew.
fn put_rubbish(dice: &mut Dice, clear: &mut u64) {
    let behind = first_f(*clear) + 1;
    if behind > 15 {
        return;
    }
    if dice.chance(60) {
        set_nibble(clear, dice.between(behind, 15), dice.below(15));
    } else {
        (behind..16).for_each(|place| set_nibble(clear, place, dice.below(16)));
    }
}
