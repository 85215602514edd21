//! The calls that cipher one block with a clear key, and the check value of a lab key.

use crate::des::{Des, BLOCK_BYTES};
use crate::reply::{eight_bytes, lent, Refusal, Reply};
use crate::triple_des::TripleDes;

/// A check value is the first bytes of a block of zeros, enciphered.
const CHECK_BYTES: usize = 3;

/// One block under a DES key of 8 bytes.
pub fn des_encipher(key: &[u8], block: &[u8], out: &mut [u8]) -> Reply {
    Reply::of_written(put_block(out, block, || des(key), Des::encipher))
}

pub fn des_decipher(key: &[u8], block: &[u8], out: &mut [u8]) -> Reply {
    Reply::of_written(put_block(out, block, || des(key), Des::decipher))
}

/// One block under a lab key.
pub fn tdes_encipher(key: &[u8], block: &[u8], out: &mut [u8]) -> Reply {
    Reply::of_written(put_block(out, block, || TripleDes::of_key(key), TripleDes::encipher))
}

pub fn tdes_decipher(key: &[u8], block: &[u8], out: &mut [u8]) -> Reply {
    Reply::of_written(put_block(out, block, || TripleDes::of_key(key), TripleDes::decipher))
}

/// The check value of a lab key. Its parity is not looked at.
pub fn key_check(key: &[u8], out: &mut [u8]) -> Reply {
    Reply::of_written(put_check_value(key, out))
}

/// A key that is not 8 bytes is 15.
fn des(key: &[u8]) -> Result<Des, Refusal> {
    eight_bytes(key).map(Des::of_key)
}

/// 901, then 15 for the key as for the block.
fn put_block<Cipher>(
    out: &mut [u8],
    block: &[u8],
    of_key: impl FnOnce() -> Result<Cipher, Refusal>,
    apply: impl FnOnce(&Cipher, u64) -> u64,
) -> Result<u32, Refusal> {
    let out = lent::<BLOCK_BYTES>(out)?;
    let block = eight_bytes(block)?;
    *out = apply(&of_key()?, block).to_be_bytes();
    Ok(BLOCK_BYTES as u32)
}

fn put_check_value(key: &[u8], out: &mut [u8]) -> Result<u32, Refusal> {
    let out = lent::<CHECK_BYTES>(out)?;
    let enciphered = TripleDes::of_key(key)?.encipher(0).to_be_bytes();
    out.copy_from_slice(&enciphered[..CHECK_BYTES]);
    Ok(CHECK_BYTES as u32)
}
