//! The three calls on PIN blocks.
//!
//! All of them judge in the paper's order: 901; 15; 23; 69; the block to be read, or 24 before
//! 20 for a PIN to be written. A refusal leaves the lent output as it was.

use crate::account::Account;
use crate::block;
use crate::format::{Format, KnownFormat};
use crate::pin::Pin;
use crate::reply::{eight_bytes, lent, Refusal, Reply};
use crate::settings::Settings;

/// The PIN of a block, as values 0 to 9; `written` is its length.
pub fn read_block(format: u32, block: &[u8], account: &[u8], out: &mut [u8]) -> Reply {
    Reply::of_written(try_read(format, block, account, out))
}

fn try_read(code: u32, block: &[u8], account: &[u8], out: &mut [u8]) -> Result<u32, Refusal> {
    let out = lent::<12>(out)?;
    let block = eight_bytes(block)?;
    let account = Account::of_characters(account)?;
    let format = Format::of_code(code)?;
    let pin = block::read(format, block, account)?;
    out[..pin.length()].copy_from_slice(pin.digits());
    Ok(pin.length() as u32)
}

/// The block of a PIN handed in as values 0 to 9.
pub fn write_block(format: u32, pin: &[u8], account: &[u8], fill: &[u8], out: &mut [u8]) -> Reply {
    Reply::of_written(try_write(format, pin, account, fill, out))
}

fn try_write(
    code: u32,
    pin: &[u8],
    account: &[u8],
    fill: &[u8],
    out: &mut [u8],
) -> Result<u32, Refusal> {
    let out = lent::<8>(out)?;
    let account = Account::of_characters(account)?;
    let fill = eight_bytes(fill)?;
    let format = Format::of_code(code)?;
    let pin = Pin::handed_in(pin)?;
    *out = block::write(format, &pin, account, fill).to_be_bytes();
    Ok(8)
}

/// Reads with one format and writes with another, for the same account.
pub fn translate(
    settings: Settings,
    from: u32,
    to: u32,
    block: &[u8],
    account: &[u8],
    fill: &[u8],
    out: &mut [u8],
) -> Reply {
    Reply::of_written(try_translate(settings, (from, to), block, account, fill, out))
}

fn try_translate(
    settings: Settings,
    codes: (u32, u32),
    block: &[u8],
    account: &[u8],
    fill: &[u8],
    out: &mut [u8],
) -> Result<u32, Refusal> {
    let out = lent::<8>(out)?;
    let block = eight_bytes(block)?;
    let account = Account::of_characters(account)?;
    let fill = eight_bytes(fill)?;
    let (from, to) = translation_pair(settings, codes)?;
    let pin = block::read(from, block, account)?;
    *out = block::write(to, &pin, account, fill).to_be_bytes();
    Ok(8)
}

/// "at 23 and at 69 the reading format comes first"; the pair is judged last.
fn translation_pair(
    settings: Settings,
    (from, to): (u32, u32),
) -> Result<(Format, Format), Refusal> {
    let from = KnownFormat::of_code(from)?;
    let to = KnownFormat::of_code(to)?;
    let from = from.built()?;
    let to = to.built()?;
    if settings.restricted && !Format::restricted_translation_allowed(from, to) {
        return Err(Refusal::FormatNotAllowed);
    }
    Ok((from, to))
}
