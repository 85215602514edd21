//! The numbers that the host and the server meet.

use crate::point::{Fault, Point};

/// What every call hands back: the number, how many bytes, digits or differences it wrote, and
/// where in a command the field that failed begins, with its number. The last two are 0 below the
/// command level, and wherever no field failed.
#[derive(Clone, Copy, Debug, PartialEq, Eq)]
pub struct Reply {
    pub number: u32,
    pub written: u32,
    pub place: u32,
    pub field: u32,
}

/// Each refusal carries its number of the paper's table as its value.
#[derive(Clone, Copy, Debug, PartialEq, Eq)]
pub enum Refusal {
    WeakList = 3,
    PinKeyParity = 10,
    PvkParity = 11,
    Field = 15,
    BlockContent = 20,
    FormatUnknown = 23,
    PinLength = 24,
    TableContent = 25,
    KeyScheme = 26,
    KeyUse = 29,
    CommandCode = 68,
    FormatNotAllowed = 69,
    CheckLength = 81,
    WeakPin = 86,
    OutputShort = 901,
    NoFrame = 902,
}

impl Refusal {
    pub fn number(self) -> u32 {
        self as u32
    }
}

impl Reply {
    /// "verdict: PIN does not verify".
    pub const DOES_NOT_VERIFY: u32 = 1;

    pub fn new(number: u32, written: u32, point: Point) -> Reply {
        Reply { number, written, place: point.place, field: point.field }
    }

    pub fn done(written: u32) -> Reply {
        Reply::new(0, written, Point::NOWHERE)
    }

    /// A refusal that writes nothing and points nowhere.
    pub fn refused(refusal: Refusal) -> Reply {
        Reply::new(refusal.number(), 0, Point::NOWHERE)
    }

    /// A call that writes: how much it wrote, or why it wrote nothing.
    pub fn of_written(outcome: Result<u32, Refusal>) -> Reply {
        match outcome {
            Ok(written) => Reply::done(written),
            Err(refusal) => Reply::refused(refusal),
        }
    }

    /// An asking call: how much it wrote, or why it wrote nothing and where that shows.
    pub fn of_asking(outcome: Result<u32, Fault>) -> Reply {
        match outcome {
            Ok(written) => Reply::done(written),
            Err(Fault { refusal, point }) => Reply::new(refusal.number(), 0, point),
        }
    }

    /// An answering call: a response was written, or there was no room or no frame for one.
    pub fn of_response(outcome: Result<Reply, Refusal>) -> Reply {
        outcome.unwrap_or_else(Reply::refused)
    }

    /// A call that judges: 00 where it verifies, 01 where it does not, or a refusal. It never
    /// writes.
    pub fn of_verdict(outcome: Result<bool, Refusal>) -> Reply {
        match outcome {
            Ok(true) => Reply::done(0),
            Ok(false) => Reply::new(Reply::DOES_NOT_VERIFY, 0, Point::NOWHERE),
            Err(refusal) => Reply::refused(refusal),
        }
    }
}

/// The first `N` bytes of the lent output. Longer is fine, shorter is 901.
pub fn lent<const N: usize>(out: &mut [u8]) -> Result<&mut [u8; N], Refusal> {
    out.first_chunk_mut().ok_or(Refusal::OutputShort)
}

/// A byte run that must hold exactly 8 bytes: a block, an enciphered block or fill; else 15.
pub fn eight_bytes(run: &[u8]) -> Result<u64, Refusal> {
    let bytes: [u8; 8] = run.try_into().map_err(|_| Refusal::Field)?;
    Ok(u64::from_be_bytes(bytes))
}
