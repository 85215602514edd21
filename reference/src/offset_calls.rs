//! The calls on natural PINs, offsets, differences and the IBM 3624 verdict.

use crate::account::Account;
use crate::block;
use crate::format::Format;
use crate::natural::{sixteen_characters, NaturalPin, Table};
use crate::offset::{self, check_length, covered, Offset, OFFSET_CHARACTERS};
use crate::pin::{pin_length, Pin};
use crate::reply::{eight_bytes, lent, Refusal, Reply};
use crate::settings::Settings;

/// The natural PIN's digits, as values; `written` is the length asked for.
pub fn natural_pin(length: u32, table: &[u8], enciphered: &[u8], out: &mut [u8]) -> Reply {
    Reply::of_written(try_natural_pin(length, table, enciphered, out))
}

fn try_natural_pin(
    length: u32,
    table: &[u8],
    enciphered: &[u8],
    out: &mut [u8],
) -> Result<u32, Refusal> {
    let out = lent::<12>(out)?;
    let table = sixteen_characters(table)?;
    let enciphered = eight_bytes(enciphered)?;
    let table = Table::of_characters(table)?;
    // An open point: the call's own bad length is 24, after 25.
    let pin_digits = pin_length(length as usize)?;
    let natural = table.natural_pin(enciphered, pin_digits);
    out[..pin_digits].copy_from_slice(natural.digits());
    Ok(length)
}

/// What the offset of a block and its verdict take alike.
struct Presented<'a> {
    settings: Settings,
    format: u32,
    check: u32,
    block: &'a [u8],
    account: &'a [u8],
    table: &'a [u8],
    enciphered: &'a [u8],
}

/// The same, with every field judged alone (15) and nothing else yet.
struct Fields<'a> {
    settings: Settings,
    format: u32,
    check: usize,
    block: u64,
    account: Account,
    table: &'a [u8; 16],
    enciphered: u64,
}

impl<'a> Presented<'a> {
    fn fields(self) -> Result<Fields<'a>, Refusal> {
        Ok(Fields {
            settings: self.settings,
            format: self.format,
            check: check_length(self.check)?,
            block: eight_bytes(self.block)?,
            account: Account::of_characters(self.account)?,
            table: sixteen_characters(self.table)?,
            enciphered: eight_bytes(self.enciphered)?,
        })
    }
}

impl Fields<'_> {
    /// 23, 69, 25, the block, then m over n (81): the covered count and the offset itself.
    fn offset(&self) -> Result<(usize, [u8; OFFSET_CHARACTERS]), Refusal> {
        let format = Format::of_code(self.format)?;
        let table = Table::of_characters(self.table)?;
        let pin = block::read(format, self.block, self.account)?;
        let covered = covered(self.settings, self.check, &pin)?;
        let natural = table.natural_pin(self.enciphered, pin.length());
        Ok((covered, offset::characters(&pin, &natural, covered)))
    }
}

/// The offset of the PIN in a block, as 12 characters.
#[allow(clippy::too_many_arguments)] // the order of the C face
pub fn offset(
    settings: Settings,
    format: u32,
    check: u32,
    block: &[u8],
    account: &[u8],
    table: &[u8],
    enciphered: &[u8],
    out: &mut [u8],
) -> Reply {
    let presented = Presented { settings, format, check, block, account, table, enciphered };
    Reply::of_written(try_offset(presented, out))
}

fn try_offset(presented: Presented<'_>, out: &mut [u8]) -> Result<u32, Refusal> {
    let out = lent::<OFFSET_CHARACTERS>(out)?;
    let (_, characters) = presented.fields()?.offset()?;
    *out = characters;
    Ok(OFFSET_CHARACTERS as u32)
}

/// Whether a presented offset is the one of the PIN in a block: 00, or 01 if it is not.
#[allow(clippy::too_many_arguments)] // the order of the C face
pub fn offset_verdict(
    settings: Settings,
    format: u32,
    check: u32,
    block: &[u8],
    account: &[u8],
    table: &[u8],
    enciphered: &[u8],
    presented_offset: &[u8],
) -> Reply {
    let presented = Presented { settings, format, check, block, account, table, enciphered };
    Reply::of_verdict(try_offset_verdict(presented, presented_offset))
}

/// The presented offset's form is a 15 among the others; its count of digits is judged last.
fn try_offset_verdict(presented: Presented<'_>, run: &[u8]) -> Result<bool, Refusal> {
    let fields = presented.fields()?;
    let presented_offset = Offset::of_characters(run)?;
    let (covered, characters) = fields.offset()?;
    presented_offset.has_digits(covered)?;
    Ok(presented_offset.is(characters))
}

/// The offset between a PIN and a natural PIN, both handed in as values.
pub fn offset_of_digits(
    settings: Settings,
    check: u32,
    pin: &[u8],
    natural: &[u8],
    out: &mut [u8],
) -> Reply {
    Reply::of_written(try_offset_of_digits(settings, check, pin, natural, out))
}

fn try_offset_of_digits(
    settings: Settings,
    check: u32,
    pin: &[u8],
    natural: &[u8],
    out: &mut [u8],
) -> Result<u32, Refusal> {
    let out = lent::<OFFSET_CHARACTERS>(out)?;
    let (pin, natural, covered) = digits_handed_in(settings, check, pin, natural)?;
    *out = offset::characters(&pin, &natural, covered);
    Ok(OFFSET_CHARACTERS as u32)
}

/// The teacher's view: the covered differences unreduced, -9 to 9, each a signed byte.
pub fn differences(
    settings: Settings,
    check: u32,
    pin: &[u8],
    natural: &[u8],
    out: &mut [u8],
) -> Reply {
    Reply::of_written(try_differences(settings, check, pin, natural, out))
}

fn try_differences(
    settings: Settings,
    check: u32,
    pin: &[u8],
    natural: &[u8],
    out: &mut [u8],
) -> Result<u32, Refusal> {
    let out = lent::<12>(out)?;
    let (pin, natural, covered) = digits_handed_in(settings, check, pin, natural)?;
    for (place, difference) in out.iter_mut().zip(offset::differences(&pin, &natural, covered)) {
        *place = difference as u8;
    }
    Ok(covered as u32)
}

/// 15 for the check length; the PIN, 24 before 20; the natural PIN, 20 before 24; then 81.
fn digits_handed_in(
    settings: Settings,
    check: u32,
    pin: &[u8],
    natural: &[u8],
) -> Result<(Pin, NaturalPin, usize), Refusal> {
    let check = check_length(check)?;
    let pin = Pin::handed_in(pin)?;
    let natural = NaturalPin::handed_in(natural, &pin)?;
    let covered = covered(settings, check, &pin)?;
    Ok((pin, natural, covered))
}
