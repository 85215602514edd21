//! The key type of BK, and the two key fields of every command.

use crate::cursor::{decimal, printable, Cursor};
use crate::reply::Refusal;

/// "LMK id `00` to `09`".
pub type LmkId = u32;

/// Which letters the key fields want.
#[derive(Clone, Copy, Debug, PartialEq, Eq)]
pub enum Letters {
    /// Key types 001 and 002: `U` + 32 or `T` + 48 hex characters.
    Hex,
    /// Key type FFF: `S` and a key block.
    KeyBlock,
    /// A command without a key type: each field goes by its own letter.
    Any,
}

/// What a key block's bytes 5-6 and 8 may say; byte 7 must be `T` in every key field.
#[derive(Debug, PartialEq, Eq)]
pub struct PermittedUse {
    pub usages: &'static [&'static [u8]],
    pub modes: &'static [u8],
}

const ALGORITHM: u8 = b'T';

/// Version and length, the first characters after `S`.
const FRONT: usize = 5;

/// BK's field 1: "001, 002 or FFF, else 15".
pub fn key_type(cursor: &mut Cursor<'_>) -> Result<Letters, Refusal> {
    match cursor.take(3)? {
        b"001" | b"002" => Ok(Letters::Hex),
        b"FFF" => Ok(Letters::KeyBlock),
        _ => Err(Refusal::Field),
    }
}

/// The PIN key or the PVK: "judged letter first". A missing letter is 15, one that is not wanted
/// is 26. Only a key block carries an LMK id.
pub fn key(
    cursor: &mut Cursor<'_>,
    letters: Letters,
    permitted: &PermittedUse,
) -> Result<Option<LmkId>, Refusal> {
    let letter = cursor.take(1)?[0];
    match (letters, letter) {
        (Letters::Hex | Letters::Any, b'U') => cursor.take_hex(32).map(|_| None),
        (Letters::Hex | Letters::Any, b'T') => cursor.take_hex(48).map(|_| None),
        (Letters::KeyBlock | Letters::Any, b'S') => key_block(cursor, permitted).map(Some),
        _ => Err(Refusal::KeyScheme),
    }
}

/// "its five version and length characters come next, then the rest, each part missing before
/// wrong"; then 29, judged before the LMK id (15).
fn key_block(cursor: &mut Cursor<'_>, permitted: &PermittedUse) -> Result<LmkId, Refusal> {
    let front = cursor.take(FRONT)?;
    let length = key_block_length(front).ok_or(Refusal::KeyScheme)?;
    let rest = cursor.take(length - FRONT)?;
    if !rest.iter().all(printable) {
        return Err(Refusal::Field);
    }
    // The paper counts from the version byte; `rest` begins at byte 5.
    if !permitted.covers(&rest[0..2], rest[2], rest[3]) {
        return Err(Refusal::KeyUse);
    }
    lmk_id(&rest[9..11])
}

/// "version `0` or `1`, four digits of length, 0016 to 0512, counted from the version byte".
fn key_block_length(front: &[u8]) -> Option<usize> {
    let length = decimal(&front[1..])?;
    let right = matches!(front[0], b'0' | b'1') && (16..=512).contains(&length);
    right.then_some(length as usize)
}

impl PermittedUse {
    fn covers(&self, usage: &[u8], algorithm: u8, mode: u8) -> bool {
        self.usages.contains(&usage) && algorithm == ALGORITHM && self.modes.contains(&mode)
    }
}

pub fn lmk_id(characters: &[u8]) -> Result<LmkId, Refusal> {
    decimal(characters).filter(|&id| id <= 9).ok_or(Refusal::Field)
}
