//! PIN block formats: their codes, their layout, and who may be translated into whom.

use crate::reply::Refusal;

/// The six formats that are built.
#[derive(Clone, Copy, Debug, PartialEq, Eq)]
pub enum Format {
    F01,
    F03,
    F05,
    F34,
    F35,
    F47,
}

/// A code that the paper knows. 41, 42 and 48 are known, but not built.
#[derive(Clone, Copy, Debug, PartialEq, Eq)]
pub enum KnownFormat {
    Built(Format),
    NotBuilt,
}

/// What stands behind the PIN's digits.
#[derive(Clone, Copy, Debug, PartialEq, Eq)]
pub enum Fill {
    /// Nibble F at every place.
    LetterF,
    /// Any nibble.
    Anything,
    /// A to F.
    Letters,
}

impl Fill {
    /// Whether a block's clear nibble may stand at a place of the fill.
    pub fn allows(self, nibble: u8) -> bool {
        match self {
            Fill::LetterF => nibble == 0xF,
            Fill::Anything => true,
            Fill::Letters => nibble >= 0xA,
        }
    }

    /// The nibble to be written where the lent fill has `offered` at the same place.
    /// "format 05 takes the nibble, 47 takes ten plus its remainder by six, the rest ignore it".
    pub fn written(self, offered: u8) -> u8 {
        match self {
            Fill::LetterF => 0xF,
            Fill::Anything => offered,
            Fill::Letters => 10 + offered % 6,
        }
    }
}

impl KnownFormat {
    /// "format code not among 01 03 05 34 35 41 42 47 48" is 23.
    pub fn of_code(code: u32) -> Result<KnownFormat, Refusal> {
        let format = match code {
            1 => Format::F01,
            3 => Format::F03,
            5 => Format::F05,
            34 => Format::F34,
            35 => Format::F35,
            47 => Format::F47,
            41 | 42 | 48 => return Ok(KnownFormat::NotBuilt),
            _ => return Err(Refusal::FormatUnknown),
        };
        Ok(KnownFormat::Built(format))
    }

    /// "format known but not built" is 69.
    pub fn built(self) -> Result<Format, Refusal> {
        match self {
            KnownFormat::Built(format) => Ok(format),
            KnownFormat::NotBuilt => Err(Refusal::FormatNotAllowed),
        }
    }
}

impl Format {
    /// 23, then 69: the order in which every call judges its format.
    pub fn of_code(code: u32) -> Result<Format, Refusal> {
        KnownFormat::of_code(code)?.built()
    }

    /// Control nibble C. Format 03 has neither control nor length.
    pub fn control(self) -> Option<u8> {
        match self {
            Format::F01 => Some(0),
            Format::F03 => None,
            Format::F05 => Some(1),
            Format::F34 | Format::F35 => Some(2),
            Format::F47 => Some(3),
        }
    }

    pub fn fill(self) -> Fill {
        match self {
            Format::F05 => Fill::Anything,
            Format::F47 => Fill::Letters,
            Format::F01 | Format::F03 | Format::F34 | Format::F35 => Fill::LetterF,
        }
    }

    /// Whether the block is XORed with the account field.
    pub fn with_account(self) -> bool {
        matches!(self, Format::F01 | Format::F35 | Format::F47)
    }

    /// "Restricted: 05 to 01, 47, 05; 01 and 47 to 01, 47; every other built pair is 69."
    pub fn restricted_translation_allowed(from: Format, to: Format) -> bool {
        use Format::{F01, F05, F47};
        matches!((from, to), (F05, F01 | F47 | F05) | (F01 | F47, F01 | F47))
    }
}
