//! The host commands that are built, and what differs between them.

use crate::key_field::PermittedUse;
use crate::reply::Refusal;

/// A command code and a response code are two bytes long.
pub const CODE: usize = 2;

/// What a command is sent for. The fields that not all commands have go by it.
#[derive(Clone, Copy, Debug, PartialEq, Eq)]
pub enum Purpose {
    /// A key type stands before the keys and a weak list may stand behind the validation data;
    /// the restricted setting is looked at; the offset is sent back.
    MakeOffset,
    /// A maximum PIN length stands behind the keys and an offset behind the validation data; the
    /// verdict on it is sent back.
    VerifyOffset,
}

#[derive(Debug, PartialEq, Eq)]
pub struct Command {
    pub code: [u8; CODE],
    pub purpose: Purpose,
    pub pin_key: PermittedUse,
    pub pvk: PermittedUse,
}

/// Offset for a terminal PIN.
pub static BK: Command = Command {
    code: *b"BK",
    purpose: Purpose::MakeOffset,
    pin_key: PermittedUse { usages: &[b"P0", b"71", b"72"], modes: b"BDN" },
    pvk: PermittedUse { usages: &[b"V1"], modes: b"CGN" },
};

/// Verification of a PIN under a terminal key.
pub static DA: Command = Command {
    code: *b"DA",
    purpose: Purpose::VerifyOffset,
    pin_key: PermittedUse { usages: &[b"P0", b"71"], modes: b"BDN" },
    pvk: PermittedUse { usages: &[b"V1"], modes: b"CVN" },
};

/// Verification of a PIN under a zone key.
pub static EA: Command = Command {
    code: *b"EA",
    purpose: Purpose::VerifyOffset,
    pin_key: PermittedUse { usages: &[b"P0", b"72"], modes: b"BDN" },
    pvk: PermittedUse { usages: &[b"V1"], modes: b"CVN" },
};

pub static COMMANDS: [&Command; 3] = [&BK, &DA, &EA];

impl Command {
    /// Every other code is 68.
    pub fn of_code(code: [u8; CODE]) -> Result<&'static Command, Refusal> {
        let built = COMMANDS.into_iter().find(|command| command.code == code);
        built.ok_or(Refusal::CommandCode)
    }
}
