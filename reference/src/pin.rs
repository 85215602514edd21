//! The digits of a PIN.

use crate::reply::Refusal;

pub const SHORTEST_PIN: usize = 4;
pub const LONGEST_PIN: usize = 12;

/// Four to twelve digits, each a value 0 to 9.
#[derive(Clone, Copy, Debug, PartialEq, Eq)]
pub struct Pin {
    values: [u8; LONGEST_PIN],
    length: usize,
}

/// "PIN length outside 4 to 12" is 24.
pub fn pin_length(length: usize) -> Result<usize, Refusal> {
    if (SHORTEST_PIN..=LONGEST_PIN).contains(&length) {
        Ok(length)
    } else {
        Err(Refusal::PinLength)
    }
}

/// "a digit over 9 in a PIN or natural PIN handed in" is 20.
pub fn only_digits(values: &[u8]) -> Result<(), Refusal> {
    if values.iter().all(|&value| value <= 9) {
        Ok(())
    } else {
        Err(Refusal::BlockContent)
    }
}

impl Pin {
    /// A PIN handed in as values: "24 before 20".
    pub fn handed_in(values: &[u8]) -> Result<Pin, Refusal> {
        let length = pin_length(values.len())?;
        only_digits(values)?;
        let mut pin = Pin { values: [0; LONGEST_PIN], length };
        pin.values[..length].copy_from_slice(values);
        Ok(pin)
    }

    /// A PIN out of `length` nibbles of a block, from its place `first` on; a letter is 20.
    /// The length must have been judged before.
    pub fn of_nibbles(block: u64, first: usize, length: usize) -> Result<Pin, Refusal> {
        let mut pin = Pin { values: [0; LONGEST_PIN], length };
        for (index, value) in pin.values[..length].iter_mut().enumerate() {
            *value = crate::block::nibble(block, first + index);
        }
        only_digits(pin.digits())?;
        Ok(pin)
    }

    pub fn digits(&self) -> &[u8] {
        &self.values[..self.length]
    }

    pub fn length(&self) -> usize {
        self.length
    }
}
