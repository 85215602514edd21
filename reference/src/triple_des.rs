//! Triple DES with the clear keys of a lab: FIPS 46-3's TDEA with two keys or with three.

use crate::des::Des;
use crate::reply::{eight_bytes, Refusal};

/// A lab key has 16 or 24 bytes.
pub struct TripleDes {
    first: Des,
    second: Des,
    third: Des,
}

impl TripleDes {
    /// K1, K2 and K3; of two keys the third is the first. "15 for a lab key of neither length".
    pub fn of_key(key: &[u8]) -> Result<TripleDes, Refusal> {
        let (first, second, third) = match key.len() {
            16 => (&key[..8], &key[8..], &key[..8]),
            24 => (&key[..8], &key[8..16], &key[16..]),
            _ => return Err(Refusal::Field),
        };
        let des = |part| eight_bytes(part).map(Des::of_key);
        Ok(TripleDes { first: des(first)?, second: des(second)?, third: des(third)? })
    }

    /// E(K1), D(K2), E(K3).
    pub fn encipher(&self, block: u64) -> u64 {
        self.third.encipher(self.second.decipher(self.first.encipher(block)))
    }

    /// D(K3), E(K2), D(K1).
    pub fn decipher(&self, block: u64) -> u64 {
        self.first.decipher(self.second.encipher(self.third.decipher(block)))
    }
}

/// Whether every byte has an odd number of ones. The last bit of a byte is there for nothing else.
pub fn odd_parity(key: &[u8]) -> bool {
    key.iter().all(|byte| byte.count_ones() % 2 == 1)
}
