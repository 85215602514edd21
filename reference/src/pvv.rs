//! The ABA way: the PVV, its input and its verdict.

use crate::account::Account;
use crate::block::{self, nibble, NIBBLES};
use crate::format::Format;
use crate::pin::Pin;
use crate::reply::{eight_bytes, lent, Refusal, Reply};

pub const PVV_DIGITS: usize = 4;
const HIGHEST_KEY_INDEX: u32 = 6;

/// "the key index (0 to 6, else 15)".
fn key_index(index: u32) -> Result<u64, Refusal> {
    if index <= HIGHEST_KEY_INDEX {
        Ok(u64::from(index))
    } else {
        Err(Refusal::Field)
    }
}

/// "a presented PVV that is not four digits is 15, judged before the PIN block".
fn presented_digits(pvv: &[u8]) -> Result<[u8; PVV_DIGITS], Refusal> {
    let pvv: [u8; PVV_DIGITS] = pvv.try_into().map_err(|_| Refusal::Field)?;
    if pvv.iter().all(u8::is_ascii_digit) {
        Ok(pvv)
    } else {
        Err(Refusal::Field)
    }
}

/// "the last 11 account digits, the key index (0 to 6, else 15) and the first four PIN digits".
fn input_of(account: Account, index: u64, pin: &Pin) -> u64 {
    let last_account_digits = account.field() & ((1 << 44) - 1);
    let mut input = last_account_digits << 4 | index;
    for &digit in &pin.digits()[..PVV_DIGITS] {
        input = input << 4 | u64::from(digit);
    }
    input
}

/// "the first four nibbles 0 to 9 of the enciphered input, from the left; if fewer, the nibbles
/// A to F, again from the left and less ten, complete it" - as characters.
fn pvv_of(enciphered: u64) -> [u8; PVV_DIGITS] {
    let nibbles = || (0..NIBBLES).map(|place| nibble(enciphered, place));
    let digits = nibbles().filter(|&nibble| nibble <= 9);
    let letters = nibbles().filter(|&nibble| nibble > 9).map(|nibble| nibble - 10);
    let mut pvv = [0; PVV_DIGITS];
    for (character, digit) in pvv.iter_mut().zip(digits.chain(letters)) {
        *character = b'0' + digit;
    }
    pvv
}

/// The 8-byte block to be enciphered for a PVV.
pub fn pvv_input(format: u32, index: u32, block: &[u8], account: &[u8], out: &mut [u8]) -> Reply {
    Reply::of_written(try_pvv_input(format, index, block, account, out))
}

fn try_pvv_input(
    format: u32,
    index: u32,
    block: &[u8],
    account: &[u8],
    out: &mut [u8],
) -> Result<u32, Refusal> {
    let out = lent::<8>(out)?;
    let index = key_index(index)?;
    let block = eight_bytes(block)?;
    let account = Account::of_characters(account)?;
    let format = Format::of_code(format)?;
    let pin = block::read(format, block, account)?;
    *out = input_of(account, index, &pin).to_be_bytes();
    Ok(8)
}

/// The PVV of an enciphered input, as four digit characters.
pub fn pvv(enciphered: &[u8], out: &mut [u8]) -> Reply {
    Reply::of_written(try_pvv(enciphered, out))
}

fn try_pvv(enciphered: &[u8], out: &mut [u8]) -> Result<u32, Refusal> {
    let out = lent::<PVV_DIGITS>(out)?;
    *out = pvv_of(eight_bytes(enciphered)?);
    Ok(PVV_DIGITS as u32)
}

/// Whether a presented PVV is the one of the enciphered input: 00, or 01 if it is not. The block
/// must be a good one, although the verdict only compares digits.
pub fn pvv_verdict(
    format: u32,
    index: u32,
    block: &[u8],
    account: &[u8],
    enciphered: &[u8],
    presented_pvv: &[u8],
) -> Reply {
    let verdict = try_pvv_verdict(format, index, block, account, enciphered, presented_pvv);
    Reply::of_verdict(verdict)
}

fn try_pvv_verdict(
    format: u32,
    index: u32,
    block: &[u8],
    account: &[u8],
    enciphered: &[u8],
    presented_pvv: &[u8],
) -> Result<bool, Refusal> {
    key_index(index)?;
    let block = eight_bytes(block)?;
    let account = Account::of_characters(account)?;
    let enciphered = eight_bytes(enciphered)?;
    let presented = presented_digits(presented_pvv)?;
    let format = Format::of_code(format)?;
    block::read(format, block, account)?;
    Ok(pvv_of(enciphered) == presented)
}
