//! The asking and the answering call of a host command, and the call that hands out its PIN block.

use crate::block;
use crate::command::{Command, CODE};
use crate::cursor::{printable, Cursor};
use crate::fields::{self, Fields, Task};
use crate::offset::{self, covered, OFFSET_CHARACTERS};
use crate::point::{Fault, Point};
use crate::reply::{eight_bytes, lent, Refusal, Reply};
use crate::settings::Settings;

const LONGEST_COMMAND: usize = 4096;

/// BK's: header 16, response code 2, number 2, offset 12, trailer with its mark 33. Every command
/// asks for as much.
const LONGEST_RESPONSE: usize = 65;

/// Twice as much as a PIN block has today.
const PIN_BLOCK_ROOM: usize = 16;

/// A command taken apart as far as its frame goes.
struct Frame<'a> {
    header: &'a [u8],
    code: [u8; CODE],
    /// All of it: places are counted from its first byte.
    command: &'a [u8],
}

/// The usual settings.
pub fn usual() -> Settings {
    Settings::usual()
}

/// Reads a command and writes the block that the key box must encipher under the PVK.
pub fn ask(settings: Settings, command: &[u8], out: &mut [u8]) -> Reply {
    Reply::of_asking(try_ask(settings, command, out))
}

fn try_ask(settings: Settings, command: &[u8], out: &mut [u8]) -> Result<u32, Fault> {
    let out = lent::<8>(out).map_err(Fault::nowhere)?;
    let frame = Frame::of_command(settings, command).map_err(Fault::nowhere)?;
    let fields = frame.fields(settings)?;
    *out = fields.validation.to_be_bytes();
    Ok(8)
}

/// Reads a command and writes the bytes of its PIN block field, which the key box must decipher
/// under the PIN key. It judges as the asking call does, and does not look into the block.
pub fn pin_block(settings: Settings, command: &[u8], out: &mut [u8]) -> Reply {
    Reply::of_asking(try_pin_block(settings, command, out))
}

fn try_pin_block(settings: Settings, command: &[u8], out: &mut [u8]) -> Result<u32, Fault> {
    let out = lent::<PIN_BLOCK_ROOM>(out).map_err(Fault::nowhere)?;
    let frame = Frame::of_command(settings, command).map_err(Fault::nowhere)?;
    let fields = frame.fields(settings)?;
    let block = fields.pin_block.to_be_bytes();
    out[..block.len()].copy_from_slice(&block);
    Ok(block.len() as u32)
}

/// Takes the command again with what the key box has made of it, and writes the response.
pub fn answer(
    settings: Settings,
    pin_key_parity_good: bool,
    pvk_parity_good: bool,
    command: &[u8],
    pin_block: &[u8],
    enciphered: &[u8],
    out: &mut [u8],
) -> Reply {
    let key_box = |_: &Fields<'_>| {
        let [pin_block, enciphered] = [eight_bytes(pin_block)?, eight_bytes(enciphered)?];
        Ok(KeyBox { pin_key_parity_good, pvk_parity_good, pin_block, enciphered })
    };
    respond(settings, command, out, key_box)
}

/// What a key box makes of a command.
pub struct KeyBox {
    pub pin_key_parity_good: bool,
    pub pvk_parity_good: bool,
    /// Deciphered under the PIN key.
    pub pin_block: u64,
    /// The validation block under the PVK.
    pub enciphered: u64,
}

/// Writes the response to a command. What the key box makes of it, or why it can make nothing of
/// it, is asked for when the fields are in order.
pub fn respond(
    settings: Settings,
    command: &[u8],
    out: &mut [u8],
    key_box: impl FnOnce(&Fields<'_>) -> Result<KeyBox, Refusal>,
) -> Reply {
    Reply::of_response(try_respond(settings, command, out, key_box))
}

/// Only 901 and 902 leave without a response.
fn try_respond(
    settings: Settings,
    command: &[u8],
    out: &mut [u8],
    key_box: impl FnOnce(&Fields<'_>) -> Result<KeyBox, Refusal>,
) -> Result<Reply, Refusal> {
    let out = lent::<LONGEST_RESPONSE>(out)?;
    let frame = Frame::of_command(settings, command)?;
    let mut response = Response { out, written: 0 };
    let judged = judge(settings, &frame, key_box);
    let number = match judged {
        Ok((Outcome::Made(offset), trailer)) => response.done(&frame, &offset, trailer),
        Ok((Outcome::Verifies, trailer)) => response.done(&frame, &[], trailer),
        // "a verdict 01 writes a short response without a trailer"
        Ok((Outcome::DoesNotVerify, _)) => response.short(&frame, Reply::DOES_NOT_VERIFY),
        // "A trailer, with its 19 mark, comes back with 00 only."
        Err(fault) => response.short(&frame, fault.refusal.number()),
    };
    // "Host bytes do not change": the point is in the reply alone.
    let point = judged.map_or_else(|fault| fault.point, |_| Point::NOWHERE);
    Ok(Reply::new(number, response.written as u32, point))
}

/// What comes of a command that nothing refuses.
#[derive(Clone, Copy)]
enum Outcome {
    Made([u8; OFFSET_CHARACTERS]),
    Verifies,
    DoesNotVerify,
}

/// 68, the fields, what the key box hands over: the outcome and the command's trailer.
fn judge<'a>(
    settings: Settings,
    frame: &Frame<'a>,
    key_box: impl FnOnce(&Fields<'_>) -> Result<KeyBox, Refusal>,
) -> Result<(Outcome, &'a [u8]), Fault> {
    let fields = frame.fields(settings)?;
    let key_box = key_box(&fields).map_err(|refusal| Fault { refusal, point: frame.end() })?;
    let outcome = key_box.outcome(settings, &fields).map_err(Fault::nowhere)?;
    Ok((outcome, fields.trailer))
}

impl<'a> Frame<'a> {
    /// "no frame: header setting over 16, command over 4,096 bytes or under header + 2, or a
    /// header byte outside 20 to 7E hex" is 902.
    fn of_command(settings: Settings, command: &'a [u8]) -> Result<Frame<'a>, Refusal> {
        if settings.header > Settings::HEADER_LIMIT || command.len() > LONGEST_COMMAND {
            return Err(Refusal::NoFrame);
        }
        let (header, rest) = command.split_at_checked(settings.header).ok_or(Refusal::NoFrame)?;
        let code = rest.first_chunk::<CODE>().ok_or(Refusal::NoFrame)?;
        if !header.iter().all(printable) {
            return Err(Refusal::NoFrame);
        }
        Ok(Frame { header, code: *code, command })
    }

    /// 68, then the fields.
    fn fields(&self, settings: Settings) -> Result<Fields<'a>, Fault> {
        let command = Command::of_code(self.code).map_err(Fault::nowhere)?;
        fields::read(command, settings, Cursor::new(self.command, self.header.len() + CODE))
    }

    /// "For slices that are not 8 bytes, the position is the command's length." So it is for lab
    /// keys of neither length.
    fn end(&self) -> Point {
        Point::at(self.command.len(), Point::NO_FIELD)
    }

    /// "the command code with its second byte raised by one (255 becomes 0)".
    fn response_code(&self) -> [u8; CODE] {
        [self.code[0], self.code[1].wrapping_add(1)]
    }
}

impl KeyBox {
    /// Behind the slices "10, 11, the block (20 or 24), 81, 86". A verdict has 81 in its place,
    /// then 00 or 01.
    fn outcome(&self, settings: Settings, fields: &Fields<'_>) -> Result<Outcome, Refusal> {
        self.parities()?;
        let pin = block::read(fields.format, self.pin_block, fields.account)?;
        let covered = covered(settings, fields.check, &pin)?;
        let natural = fields.table.natural_pin(self.enciphered, pin.length());
        let offset = offset::characters(&pin, &natural, covered);
        match &fields.task {
            Task::MakeOffset(weak_pins) if weak_pins.hold(&pin) => Err(Refusal::WeakPin),
            Task::MakeOffset(_) => Ok(Outcome::Made(offset)),
            Task::VerifyOffset(presented) => {
                presented.has_digits(covered)?;
                Ok(if presented.is(offset) { Outcome::Verifies } else { Outcome::DoesNotVerify })
            }
        }
    }

    fn parities(&self) -> Result<(), Refusal> {
        if !self.pin_key_parity_good {
            return Err(Refusal::PinKeyParity);
        }
        if !self.pvk_parity_good {
            return Err(Refusal::PvkParity);
        }
        Ok(())
    }
}

/// The response as it grows in the lent output.
struct Response<'a> {
    out: &'a mut [u8; LONGEST_RESPONSE],
    written: usize,
}

impl Response<'_> {
    fn put(&mut self, part: &[u8]) {
        self.out[self.written..self.written + part.len()].copy_from_slice(part);
        self.written += part.len();
    }

    /// "header, response code and two-digit number": the whole of a short response.
    fn short(&mut self, frame: &Frame<'_>, number: u32) -> u32 {
        self.put(frame.header);
        self.put(&frame.response_code());
        self.put(&[b'0' + (number / 10) as u8, b'0' + (number % 10) as u8]);
        number
    }

    /// The response to a command that is done: 00, the offset where one was made, the trailer.
    fn done(&mut self, frame: &Frame<'_>, offset: &[u8], trailer: &[u8]) -> u32 {
        let number = self.short(frame, 0);
        self.put(offset);
        self.put(trailer);
        number
    }
}
