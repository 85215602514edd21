//! Validation data: what the key box enciphers under the PVK.

use crate::account::Account;
use crate::reply::{lent, Refusal, Reply};

/// Characters of the form with one `N`, and of the form with `P`.
pub const WITH_N: usize = 12;
pub const WITH_P: usize = 17;

/// `N` stands for this many account digits, the last ones.
const ACCOUNT_DIGITS_FOR_N: u32 = 5;

/// "Hex letters are capitals only."
pub fn hex_value(character: u8) -> Option<u8> {
    match character {
        b'0'..=b'9' => Some(character - b'0'),
        b'A'..=b'F' => Some(character - b'A' + 10),
        _ => None,
    }
}

/// The validation block as a number: "12 characters, eleven hex and exactly one `N`; or `P` + 16
/// hex", else 15.
pub fn block_of(validation: &[u8], account: Account) -> Result<u64, Refusal> {
    match validation {
        [b'P', hex @ ..] if validation.len() == WITH_P => block_of_hex(hex),
        _ if validation.len() == WITH_N => block_with_account(validation, account),
        _ => Err(Refusal::Field),
    }
}

/// Sixteen hex characters as a block; one that is no hex is 15.
pub fn block_of_hex(hex: &[u8]) -> Result<u64, Refusal> {
    let mut block = 0;
    for &character in hex {
        let nibble = hex_value(character).ok_or(Refusal::Field)?;
        block = block << 4 | u64::from(nibble);
    }
    Ok(block)
}

/// "`N` is replaced by the last five account digits."
fn block_with_account(characters: &[u8], account: Account) -> Result<u64, Refusal> {
    let bits = 4 * ACCOUNT_DIGITS_FOR_N;
    let last_digits = account.field() & ((1 << bits) - 1);
    let mut block = 0;
    let mut marks = 0;
    for &character in characters {
        if character == b'N' {
            marks += 1;
            block = block << bits | last_digits;
        } else {
            let nibble = hex_value(character).ok_or(Refusal::Field)?;
            block = block << 4 | u64::from(nibble);
        }
    }
    if marks == 1 {
        Ok(block)
    } else {
        Err(Refusal::Field)
    }
}

/// The 8-byte block to be enciphered.
pub fn validation_block(validation: &[u8], account: &[u8], out: &mut [u8]) -> Reply {
    Reply::of_written(try_validation_block(validation, account, out))
}

fn try_validation_block(validation: &[u8], account: &[u8], out: &mut [u8]) -> Result<u32, Refusal> {
    let out = lent::<8>(out)?;
    let account = Account::of_characters(account)?;
    *out = block_of(validation, account)?.to_be_bytes();
    Ok(8)
}
