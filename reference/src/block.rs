//! Blocks, nibble by nibble. A block is a number of sixteen nibbles, the first one highest.

use crate::account::Account;
use crate::format::Format;
use crate::pin::{pin_length, Pin};
use crate::reply::Refusal;

pub const NIBBLES: usize = 16;

/// Control and length stand before the digits in every format but 03.
const FIRST_DIGIT: usize = 2;

/// The nibble at a place counted from the left, 0 to 15.
pub fn nibble(block: u64, place: usize) -> u8 {
    (block >> (60 - 4 * place)) as u8 & 0xF
}

/// What a format XORs its block with.
pub fn mask(format: Format, account: Account) -> u64 {
    if format.with_account() {
        account.field()
    } else {
        0
    }
}

/// The PIN of a block; 20 or 24 in the paper's order.
pub fn read(format: Format, block: u64, account: Account) -> Result<Pin, Refusal> {
    let clear = block ^ mask(format, account);
    match format.control() {
        Some(control) => read_with_length(format, control, clear),
        None => read_until_f(format, clear),
    }
}

/// "Reading judges C (20), N (24), then digits and fill (20)."
fn read_with_length(format: Format, control: u8, clear: u64) -> Result<Pin, Refusal> {
    if nibble(clear, 0) != control {
        return Err(Refusal::BlockContent);
    }
    let length = pin_length(usize::from(nibble(clear, 1)))?;
    let pin = Pin::of_nibbles(clear, FIRST_DIGIT, length)?;
    judge_fill(format, clear, FIRST_DIGIT + length)?;
    Ok(pin)
}

/// Format 03: "Its PIN ends at the first F", "A to E before the first F is 20; then a count
/// outside 4 to 12 is 24." Request §2 has taken the place of the paper's "later nibbles are not
/// looked at": "After the first F every nibble must be F. [..] Refusals: 20 for a non-F nibble
/// behind the first F, judged after 24." Without an F the PIN ends at the block's end (an open
/// point).
fn read_until_f(format: Format, clear: u64) -> Result<Pin, Refusal> {
    let count = (0..NIBBLES).position(|place| nibble(clear, place) == 0xF).unwrap_or(NIBBLES);
    if (0..count).any(|place| nibble(clear, place) > 9) {
        return Err(Refusal::BlockContent);
    }
    let pin = Pin::of_nibbles(clear, 0, pin_length(count)?)?;
    judge_fill(format, clear, count)?;
    Ok(pin)
}

/// From a place to the block's end there must be nothing but the format's fill, else 20.
fn judge_fill(format: Format, clear: u64, first: usize) -> Result<(), Refusal> {
    let fill = format.fill();
    if (first..NIBBLES).all(|place| fill.allows(nibble(clear, place))) {
        Ok(())
    } else {
        Err(Refusal::BlockContent)
    }
}

/// The block of a PIN. Block nibble i takes fill nibble i, at the fill's own places only.
pub fn write(format: Format, pin: &Pin, account: Account, fill: u64) -> u64 {
    let mut clear = 0;
    let mut place = 0;
    if let Some(control) = format.control() {
        clear = u64::from(control) << 4 | pin.length() as u64;
        place = FIRST_DIGIT;
    }
    for &digit in pin.digits() {
        clear = clear << 4 | u64::from(digit);
    }
    for place in place + pin.length()..NIBBLES {
        clear = clear << 4 | u64::from(format.fill().written(nibble(fill, place)));
    }
    clear ^ mask(format, account)
}
