//! Answering a whole command with clear lab keys, where no key box stands behind the server.

use crate::command_calls::{self, KeyBox};
use crate::fields::Fields;
use crate::reply::{Refusal, Reply};
use crate::settings::Settings;
use crate::triple_des::{odd_parity, TripleDes};

/// Takes a command and the two lab keys, and writes the response. Nothing ties a key's length to
/// the letter of its field.
pub fn lab_answer(
    settings: Settings,
    command: &[u8],
    pin_key: &[u8],
    pvk: &[u8],
    out: &mut [u8],
) -> Reply {
    let key_box = |fields: &Fields<'_>| made_by(pin_key, pvk, fields);
    command_calls::respond(settings, command, out, key_box)
}

/// What a key box would hand over. "15 for a lab key of neither length, before 10 and 11": before
/// either parity is told, both keys have a length.
fn made_by(pin_key: &[u8], pvk: &[u8], fields: &Fields<'_>) -> Result<KeyBox, Refusal> {
    let (pin_cipher, pvk_cipher) = (TripleDes::of_key(pin_key)?, TripleDes::of_key(pvk)?);
    Ok(KeyBox {
        pin_key_parity_good: odd_parity(pin_key),
        pvk_parity_good: odd_parity(pvk),
        pin_block: pin_cipher.decipher(fields.pin_block),
        enciphered: pvk_cipher.encipher(fields.validation),
    })
}
