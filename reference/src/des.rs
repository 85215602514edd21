//! The Data Encryption Standard of FIPS 46-3, in the standard's words and order.
//!
//! A block is the low bits of a number, its first bit the highest of them.

use crate::des_tables::{E, IP, IP_INVERSE, LEFT_SHIFTS, P, PC_1, PC_2, S};

/// So many has a key too.
pub const BLOCK_BYTES: usize = 8;

/// C and D, the halves of the key that are shifted.
const SHIFTED_BITS: u32 = 28;
const SHIFTED: u64 = (1 << SHIFTED_BITS) - 1;
/// L and R, the halves of a block.
const HALF_BITS: u32 = 32;
const HALF: u64 = (1 << HALF_BITS) - 1;

/// A key as the sixteen iterations use it: K1 to K16, 48 bits each.
#[derive(Clone, Copy)]
pub struct Des {
    schedule: [u64; 16],
}

/// The bits of a block of so many bits that a table names, in the table's order. It permutes,
/// selects or chooses, as the table has it.
fn bits_of(table: &[u8], block: u64, width: u8) -> u64 {
    table.iter().fold(0, |bits, &place| bits << 1 | block >> (width - place) & 1)
}

impl Des {
    /// The key schedule. No table names a parity bit, so that these do not enter.
    pub fn of_key(key: u64) -> Des {
        let chosen = bits_of(&PC_1, key, 64);
        let (mut c, mut d) = (chosen >> SHIFTED_BITS, chosen & SHIFTED);
        let schedule = LEFT_SHIFTS.map(|count| {
            (c, d) = (left_shift(c, count), left_shift(d, count));
            bits_of(&PC_2, c << SHIFTED_BITS | d, 56)
        });
        Des { schedule }
    }

    pub fn encipher(&self, block: u64) -> u64 {
        compute(block, self.schedule.iter())
    }

    /// "the same algorithm", but K16 is used in the first iteration, K15 in the second, and so on.
    pub fn decipher(&self, block: u64) -> u64 {
        compute(block, self.schedule.iter().rev())
    }
}

/// The bits of C or D move one place to the left; the first becomes the last.
fn left_shift(half: u64, count: u32) -> u64 {
    (half << count | half >> (SHIFTED_BITS - count)) & SHIFTED
}

/// The initial permutation, sixteen iterations and the inverse permutation.
fn compute<'a>(input: u64, keys: impl Iterator<Item = &'a u64>) -> u64 {
    let permuted = bits_of(&IP, input, 64);
    let (mut l, mut r) = (permuted >> HALF_BITS, permuted & HALF);
    for &k in keys {
        (l, r) = (r, l ^ f(r, k));
    }
    // the preoutput block has R16 on the left
    bits_of(&IP_INVERSE, r << HALF_BITS | l, 64)
}

/// The cipher function: P(S1(B1) S2(B2) ... S8(B8)), where B1 to B8 are K + E(R).
fn f(r: u64, k: u64) -> u64 {
    let b = k ^ bits_of(&E, r, 32);
    let mut selected = 0;
    for (number, _) in S.iter().enumerate() {
        let six_bits = b >> (42 - 6 * number) & 0x3F;
        selected = selected << 4 | s(number, six_bits);
    }
    bits_of(&P, selected, 32)
}

/// A box: the first and the last of six bits name its row, the four between them its column.
fn s(number: usize, six_bits: u64) -> u64 {
    let row = (six_bits >> 5) << 1 | six_bits & 1;
    let column = six_bits >> 1 & 0xF;
    u64::from(S[number][row as usize][column as usize])
}
