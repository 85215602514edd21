//! The calls of the C face: their codes, what they are handed and what they answer.

use crate::command::{Command, Purpose};
use crate::reply::{Refusal, Reply};

/// The calls of the C face; the value is the call's code in a case file.
#[derive(Clone, Copy, Debug, PartialEq, Eq, PartialOrd, Ord)]
pub enum Call {
    ReadBlock = 1,
    WriteBlock = 2,
    Translate = 3,
    ValidationBlock = 4,
    NaturalPin = 5,
    Offset = 6,
    OffsetOfDigits = 7,
    Differences = 8,
    OffsetVerdict = 9,
    PvvInput = 10,
    Pvv = 11,
    PvvVerdict = 12,
    Ask = 13,
    Answer = 14,
    Usual = 15,
    DesEncipher = 16,
    DesDecipher = 17,
    TdesEncipher = 18,
    TdesDecipher = 19,
    KeyCheck = 20,
    OddParity = 21,
    LabAnswer = 22,
    PinBlock = 23,
}

/// What the C face makes of a number argument: a size, a flag of a byte, or 32 bits.
#[derive(Clone, Copy, Debug, PartialEq, Eq)]
pub enum Parameter {
    Size,
    Flag,
    Word,
}

impl Parameter {
    /// The largest number that it carries.
    pub fn most(self) -> u64 {
        match self {
            Parameter::Size => u64::MAX,
            Parameter::Flag => 0xFF,
            Parameter::Word => 0xFFFF_FFFF,
        }
    }
}

impl Call {
    pub fn code(self) -> u8 {
        self as u8
    }

    /// Whether its first run is a host command.
    pub fn takes_command(self) -> bool {
        matches!(self, Call::Ask | Call::Answer | Call::LabAnswer | Call::PinBlock)
    }

    pub fn name(self) -> &'static str {
        match self {
            Call::ReadBlock => "read_block",
            Call::WriteBlock => "write_block",
            Call::Translate => "translate",
            Call::ValidationBlock => "validation_block",
            Call::NaturalPin => "natural_pin",
            Call::Offset => "offset",
            Call::OffsetOfDigits => "offset_of_digits",
            Call::Differences => "differences",
            Call::OffsetVerdict => "offset_verdict",
            Call::PvvInput => "pvv_input",
            Call::Pvv => "pvv",
            Call::PvvVerdict => "pvv_verdict",
            Call::Ask => "ask",
            Call::Answer => "answer",
            Call::Usual => "usual",
            Call::DesEncipher => "des_encipher",
            Call::DesDecipher => "des_decipher",
            Call::TdesEncipher => "tdes_encipher",
            Call::TdesDecipher => "tdes_decipher",
            Call::KeyCheck => "key_check",
            Call::OddParity => "odd_parity",
            Call::LabAnswer => "lab_answer",
            Call::PinBlock => "pin_block",
        }
    }

    /// What its numbers are, in the order of the C face.
    pub fn parameters(self) -> &'static [Parameter] {
        use Parameter::{Flag, Size, Word};
        match self {
            Call::ValidationBlock | Call::Pvv => &[],
            Call::DesEncipher | Call::DesDecipher => &[],
            Call::TdesEncipher | Call::TdesDecipher => &[],
            Call::KeyCheck | Call::OddParity => &[],
            Call::ReadBlock | Call::WriteBlock | Call::NaturalPin => &[Word],
            Call::PvvInput | Call::PvvVerdict => &[Word, Word],
            Call::Ask | Call::Usual => &[Size, Flag, Flag],
            Call::LabAnswer | Call::PinBlock => &[Size, Flag, Flag],
            Call::OffsetOfDigits | Call::Differences => &[Size, Flag, Flag, Word],
            Call::Translate | Call::Offset | Call::OffsetVerdict => &[Size, Flag, Flag, Word, Word],
            Call::Answer => &[Size, Flag, Flag, Flag, Flag],
        }
    }

    /// Every number that the call can answer. 01 is a verdict's alone, also that of a command;
    /// and that of a parity, which answers 1 where it is odd and else 0.
    pub fn answers(self) -> &'static [u32] {
        match self {
            Call::ReadBlock | Call::WriteBlock => &[0, 15, 20, 23, 24, 69, 901],
            Call::Translate | Call::PvvInput => &[0, 15, 20, 23, 24, 69, 901],
            Call::ValidationBlock | Call::Pvv => &[0, 15, 901],
            Call::DesEncipher | Call::DesDecipher => &[0, 15, 901],
            Call::TdesEncipher | Call::TdesDecipher | Call::KeyCheck => &[0, 15, 901],
            Call::OddParity => &[0, 1],
            Call::NaturalPin => &[0, 15, 24, 25, 901],
            Call::Offset => &[0, 15, 20, 23, 24, 25, 69, 81, 901],
            Call::OffsetOfDigits | Call::Differences => &[0, 15, 20, 24, 81, 901],
            Call::OffsetVerdict => &[0, 1, 15, 20, 23, 24, 25, 69, 81],
            Call::PvvVerdict => &[0, 1, 15, 20, 23, 24, 69],
            Call::Ask | Call::PinBlock => &[0, 3, 15, 23, 25, 26, 29, 68, 69, 901, 902],
            Call::Answer | Call::LabAnswer => {
                &[0, 1, 3, 10, 11, 15, 20, 23, 24, 25, 26, 29, 68, 69, 81, 86, 901, 902]
            }
            Call::Usual => &[0],
        }
    }

    /// Those of them that it can answer to a command that was meant for this one: an offset that
    /// is made has no verdict, and only BK has a weak list.
    pub fn answers_to(self, command: &Command) -> Vec<u32> {
        let of_others: &[u32] = match command.purpose {
            Purpose::MakeOffset => &[Reply::DOES_NOT_VERIFY],
            Purpose::VerifyOffset => &[Refusal::WeakList as u32, Refusal::WeakPin as u32],
        };
        self.answers().iter().copied().filter(|number| !of_others.contains(number)).collect()
    }

    /// How much output the call must be lent: "8 for a block, 4 for a PVV, 12 for digits,
    /// differences or an offset", 8 for asking, 65 for answering, 16 for a command's PIN block, 3
    /// for a check value. The verdicts and the parity are lent none.
    pub fn need(self) -> Option<usize> {
        match self {
            Call::WriteBlock | Call::Translate | Call::ValidationBlock | Call::PvvInput => Some(8),
            Call::Pvv => Some(4),
            Call::ReadBlock | Call::NaturalPin => Some(12),
            Call::Offset | Call::OffsetOfDigits | Call::Differences => Some(12),
            Call::DesEncipher | Call::DesDecipher => Some(8),
            Call::TdesEncipher | Call::TdesDecipher => Some(8),
            Call::KeyCheck => Some(3),
            Call::Ask => Some(8),
            Call::PinBlock => Some(16),
            Call::Answer | Call::LabAnswer => Some(65),
            Call::OffsetVerdict | Call::PvvVerdict | Call::OddParity | Call::Usual => None,
        }
    }
}
