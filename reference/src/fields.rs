//! The fields of a command, from the left, the first fault deciding.
//!
//! Twelve fields in each command. BK has its key type as field 1 and a weak list as field 10; DA
//! and EA have the maximum PIN length as field 3 and the offset as field 10. Beside that the
//! letters of the keys, their uses and the restricted setting differ. Each refusal points at the
//! field that failed, under the number that it has in its own command's table.

use crate::account::{Account, ACCOUNT_DIGITS};
use crate::block::NIBBLES;
use crate::command::{Command, Purpose};
use crate::cursor::{decimal, printable, Cursor};
use crate::format::Format;
use crate::key_field::{self, Letters, LmkId, PermittedUse};
use crate::natural::{sixteen_characters, Table};
use crate::offset::{check_length, Offset, OFFSET_CHARACTERS};
use crate::pin::Pin;
use crate::point::{Fault, Point};
use crate::reply::Refusal;
use crate::settings::Settings;
use crate::validation;

/// The only maximum PIN length that the tables of DA and EA name.
const MAXIMUM_LENGTH: &[u8] = b"12";
const WEAK_LIST_MARK: u8 = b';';
const LMK_MARK: u8 = b'%';
const TRAILER_MARK: u8 = 0x19;
const LONGEST_TRAILER: usize = 32;

/// Numbers of fields that all commands share; the first three differ.
const PIN_BLOCK: u32 = 4;
const FORMAT: u32 = 5;
const CHECK_LENGTH: u32 = 6;
const ACCOUNT: u32 = 7;
const TABLE: u32 = 8;
const VALIDATION: u32 = 9;
const WEAK_LIST_OR_OFFSET: u32 = 10;
const OWN_LMK: u32 = 11;
const TRAILER: u32 = 12;

/// What the calls need of a command.
pub struct Fields<'a> {
    /// As it came, enciphered.
    pub pin_block: u64,
    pub format: Format,
    pub check: usize,
    pub account: Account,
    pub table: Table,
    pub validation: u64,
    pub task: Task<'a>,
    /// With its mark; nothing at all where the command has none.
    pub trailer: &'a [u8],
}

/// What the answering call is to do with the PIN, and what field 10 brings for it.
pub enum Task<'a> {
    MakeOffset(WeakPins<'a>),
    VerifyOffset(Offset),
}

/// BK's field 10: entries of one length, one behind the other.
pub struct WeakPins<'a> {
    entry_length: usize,
    list: &'a [u8],
}

/// An LMK id that is present, and the field that holds it.
#[derive(Clone, Copy)]
struct PresentId {
    id: LmkId,
    point: Point,
}

/// Fields 1 to 12 from the cursor on and, at the end, the agreement of the LMK ids.
pub fn read<'a>(
    command: &Command,
    settings: Settings,
    mut cursor: Cursor<'a>,
) -> Result<Fields<'a>, Fault> {
    let [pin_key_lmk, pvk_lmk] = keys(command, &mut cursor)?;
    let pin_block = cursor.field(PIN_BLOCK, |it| validation::block_of_hex(it.take(NIBBLES)?))?;
    let format = cursor.field(FORMAT, |it| format(command, settings, it))?;
    let check = cursor.field(CHECK_LENGTH, |it| check_length(it.take_two_digits()?))?;
    let account = cursor.field(ACCOUNT, |it| Account::of_characters(it.take(ACCOUNT_DIGITS)?))?;
    let table = cursor.field(TABLE, table)?;
    let validation = cursor.field(VALIDATION, |it| validation_data(it, account))?;
    let task = cursor.field(WEAK_LIST_OR_OFFSET, |it| task(command, it))?;
    let own_lmk = with_lmk_id(&mut cursor, OWN_LMK, own_lmk)?;
    let trailer = cursor.field(TRAILER, trailer)?;
    nothing_left_over(&cursor)?;
    lmk_ids_agree([pin_key_lmk, pvk_lmk, own_lmk])?;
    Ok(Fields { pin_block, format, check, account, table, validation, task, trailer })
}

/// Fields 1 to 3: the key type and the keys, or the keys and the maximum PIN length. What they
/// leave behind are the LMK ids of the keys.
fn keys(command: &Command, cursor: &mut Cursor<'_>) -> Result<[Option<PresentId>; 2], Fault> {
    match command.purpose {
        Purpose::MakeOffset => {
            let letters = cursor.field(1, key_field::key_type)?;
            let pin_key_lmk = key(cursor, 2, letters, &command.pin_key)?;
            let pvk_lmk = key(cursor, 3, letters, &command.pvk)?;
            Ok([pin_key_lmk, pvk_lmk])
        }
        Purpose::VerifyOffset => {
            let pin_key_lmk = key(cursor, 1, Letters::Any, &command.pin_key)?;
            let pvk_lmk = key(cursor, 2, Letters::Any, &command.pvk)?;
            cursor.field(3, maximum_length)?;
            Ok([pin_key_lmk, pvk_lmk])
        }
    }
}

fn key(
    cursor: &mut Cursor<'_>,
    number: u32,
    letters: Letters,
    permitted: &PermittedUse,
) -> Result<Option<PresentId>, Fault> {
    with_lmk_id(cursor, number, |it| key_field::key(it, letters, permitted))
}

/// A field that may hold an LMK id.
fn with_lmk_id<'a>(
    cursor: &mut Cursor<'a>,
    number: u32,
    read: impl FnOnce(&mut Cursor<'a>) -> Result<Option<LmkId>, Refusal>,
) -> Result<Option<PresentId>, Fault> {
    let point = cursor.point(number);
    let id = cursor.field(number, read)?;
    Ok(id.map(|id| PresentId { id, point }))
}

/// Field 3 of DA and EA.
fn maximum_length(cursor: &mut Cursor<'_>) -> Result<(), Refusal> {
    if cursor.take(MAXIMUM_LENGTH.len())? == MAXIMUM_LENGTH {
        Ok(())
    } else {
        Err(Refusal::Field)
    }
}

/// Field 5: "15, then 23, then 69"; "BK allows all six, or restricted only 01 and 47". The other
/// commands allow all six under either setting.
fn format(
    command: &Command,
    settings: Settings,
    cursor: &mut Cursor<'_>,
) -> Result<Format, Refusal> {
    let format = Format::of_code(cursor.take_two_digits()?)?;
    let restricted = settings.restricted && command.purpose == Purpose::MakeOffset;
    if restricted && !matches!(format, Format::F01 | Format::F47) {
        return Err(Refusal::FormatNotAllowed);
    }
    Ok(format)
}

/// Field 8: "Characters missing at the end of the command give 15", a non-digit 25.
fn table(cursor: &mut Cursor<'_>) -> Result<Table, Refusal> {
    Table::of_characters(sixteen_characters(cursor.take(NIBBLES)?)?)
}

/// Field 9: its first character says which of the two forms stands here.
fn validation_data(cursor: &mut Cursor<'_>, account: Account) -> Result<u64, Refusal> {
    let length = match cursor.rest().first() {
        Some(b'P') => validation::WITH_P,
        _ => validation::WITH_N,
    };
    validation::block_of(cursor.take(length)?, account)
}

/// Field 10: BK's weak list is optional, the offset to be verified is not.
fn task<'a>(command: &Command, cursor: &mut Cursor<'a>) -> Result<Task<'a>, Refusal> {
    match command.purpose {
        Purpose::MakeOffset => weak_pins(cursor).map(Task::MakeOffset),
        Purpose::VerifyOffset => {
            Offset::of_characters(cursor.take(OFFSET_CHARACTERS)?).map(Task::VerifyOffset)
        }
    }
}

/// The weak list, part by part: count (03), length (15), list (03, a non-digit too). A count of
/// 00 has neither length nor list.
fn weak_pins<'a>(cursor: &mut Cursor<'a>) -> Result<WeakPins<'a>, Refusal> {
    let none = WeakPins { entry_length: 0, list: &[] };
    if !cursor.step_over(WEAK_LIST_MARK) {
        return Ok(none);
    }
    let count = cursor.take_or(2, Refusal::WeakList)?;
    let count = decimal(count).ok_or(Refusal::WeakList)? as usize;
    if count == 0 {
        return Ok(none);
    }
    // The entries' length has the range of a check length, and the same refusal.
    let entry_length = check_length(cursor.take_two_digits()?)?;
    let list = cursor.take_or(count * entry_length, Refusal::WeakList)?;
    if !list.iter().all(u8::is_ascii_digit) {
        return Err(Refusal::WeakList);
    }
    Ok(WeakPins { entry_length, list })
}

/// Field 11.
fn own_lmk(cursor: &mut Cursor<'_>) -> Result<Option<LmkId>, Refusal> {
    if !cursor.step_over(LMK_MARK) {
        return Ok(None);
    }
    key_field::lmk_id(cursor.take(2)?).map(Some)
}

/// Field 12: its mark and what stands behind it, but no more than 32 characters. One that is not
/// printable is 15; the bytes behind the thirty-second are no longer the field's affair.
fn trailer<'a>(cursor: &mut Cursor<'a>) -> Result<&'a [u8], Refusal> {
    let length = match cursor.rest() {
        [TRAILER_MARK, text @ ..] => 1 + text.len().min(LONGEST_TRAILER),
        _ => 0,
    };
    let field = cursor.take(length)?;
    if field.iter().skip(1).all(printable) {
        Ok(field)
    } else {
        Err(Refusal::Field)
    }
}

/// "anything left over" is 15. "Leftovers (bytes past a full trailer too) point at the first one";
/// they "have field number 0".
fn nothing_left_over(cursor: &Cursor<'_>) -> Result<(), Fault> {
    match cursor.rest() {
        [] => Ok(()),
        _ => Err(Fault { refusal: Refusal::Field, point: cursor.point(Point::NO_FIELD) }),
    }
}

/// "LMK ids present in fields 2, 3 and 11 must all agree, else 15." In DA and EA the keys are
/// fields 1 and 2. "For disagreeing LMK ids, point at the last id that is present": at its field.
fn lmk_ids_agree(ids: [Option<PresentId>; 3]) -> Result<(), Fault> {
    let present = || ids.into_iter().flatten();
    match present().last() {
        Some(last) if present().any(|it| it.id != last.id) => {
            Err(Fault { refusal: Refusal::Field, point: last.point })
        }
        _ => Ok(()),
    }
}

impl WeakPins<'_> {
    /// "A weak PIN of another length than the PIN never matches."
    pub fn hold(&self, pin: &Pin) -> bool {
        self.entry_length == pin.length()
            && self.list.chunks_exact(pin.length()).any(|entry| entry_is(entry, pin))
    }
}

fn entry_is(entry: &[u8], pin: &Pin) -> bool {
    entry.iter().zip(pin.digits()).all(|(&character, &digit)| character == b'0' + digit)
}
