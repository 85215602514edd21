//! What in a command a reply points at. A look at the bytes of the case, so that disagreeing LMK
//! ids are told from other faults of the same field.

use super::case::{Call, Case};
use crate::command::{Command, BK, CODE};
use crate::cursor::printable;
use crate::reply::{Refusal, Reply};
use std::fmt;

#[derive(Clone, Copy, Debug, PartialEq, Eq, PartialOrd, Ord)]
pub enum Pointed {
    /// A field that is short, wrong or not allowed.
    Field(u32),
    /// A field that is right by itself, but holds the last of LMK ids that disagree.
    Ids(u32),
    /// "Leftovers (bytes past a full trailer too)".
    Leftovers,
    /// "slices that are not 8 bytes".
    Slices,
    /// "a lab key of neither length".
    LabKeys,
}

/// How many fields each command has.
const FIELDS: u32 = 12;
const OWN_LMK: u32 = 11;

/// The numbers that are some field's.
pub const OF_FIELDS: [Refusal; 7] = [
    Refusal::WeakList,
    Refusal::Field,
    Refusal::FormatUnknown,
    Refusal::TableContent,
    Refusal::KeyScheme,
    Refusal::KeyUse,
    Refusal::FormatNotAllowed,
];

/// "PVK": BK's field 3, field 2 of the others.
fn pvk(code: [u8; CODE]) -> u32 {
    if code == BK.code {
        3
    } else {
        2
    }
}

impl Pointed {
    /// All that a call's replies to one command can point at. Only the answering call is lent
    /// slices, and only the lab's is lent keys.
    pub fn all(call: Call, command: &Command) -> Vec<Pointed> {
        let mut all = Vec::from_iter((1..=FIELDS).map(Pointed::Field));
        all.extend([Pointed::Ids(pvk(command.code)), Pointed::Ids(OWN_LMK), Pointed::Leftovers]);
        match call {
            Call::Answer => all.push(Pointed::Slices),
            Call::LabAnswer => all.push(Pointed::LabKeys),
            _ => {}
        }
        all
    }

    /// What a reply to a case points at, with the code of the case's command; nothing where it
    /// points nowhere.
    pub fn of(case: &Case, reply: Reply) -> Option<([u8; CODE], Pointed)> {
        let of_field = OF_FIELDS.iter().any(|refusal| refusal.number() == reply.number);
        if !of_field || !case.call.takes_command() {
            return None;
        }
        let (code, rest) = (case.code()?, &case.runs[0][reply.place as usize..]);
        // The first byte left over is a byte of the command; its length is no place in it.
        let pointed = match reply.field {
            0 if rest.is_empty() && case.call == Call::LabAnswer => Pointed::LabKeys,
            0 if rest.is_empty() => Pointed::Slices,
            0 => Pointed::Leftovers,
            field if reply.number == Refusal::Field.number() && holds_an_id(code, field, rest) => {
                Pointed::Ids(field)
            }
            field => Pointed::Field(field),
        };
        Some((code, pointed))
    }
}

/// Whether the field that begins here is the PVK or the LMK field and right by itself, with an id
/// in it.
fn holds_an_id(code: [u8; CODE], field: u32, rest: &[u8]) -> bool {
    if field == OWN_LMK {
        return matches!(rest, [b'%', b'0', b'0'..=b'9', ..]);
    }
    field == pvk(code) && is_whole_key_block(rest)
}

/// Version, length and use are right where the number is 15: 26 and 29 are judged before it.
fn is_whole_key_block(rest: &[u8]) -> bool {
    let length = rest.get(2..6).and_then(|digits| std::str::from_utf8(digits).ok()?.parse().ok());
    let block = length.and_then(|length: usize| rest.get(1..1 + length));
    rest.starts_with(b"S")
        && block.is_some_and(|block| {
            let id = block.get(14..16);
            block.iter().all(printable) && matches!(id, Some([b'0', b'0'..=b'9']))
        })
}

impl fmt::Display for Pointed {
    fn fmt(&self, text: &mut fmt::Formatter<'_>) -> fmt::Result {
        match self {
            Pointed::Field(number) => text.pad(&format!("field {number}")),
            Pointed::Ids(number) => text.pad(&format!("ids, field {number}")),
            Pointed::Leftovers => text.pad("leftovers"),
            Pointed::Slices => text.pad("slices"),
            Pointed::LabKeys => text.pad("lab keys"),
        }
    }
}
