//! The natural PIN: the enciphered validation block, seen through the decimalisation table.

use crate::block::{nibble, NIBBLES};
use crate::pin::{only_digits, Pin, LONGEST_PIN};
use crate::reply::Refusal;

/// A decimalisation table whose sixteen characters are digits; it holds their values.
#[derive(Clone, Copy, Debug, PartialEq, Eq)]
pub struct Table {
    digits: [u8; NIBBLES],
}

/// "a table not 16 characters" is 15, and comes long before a non-digit in it.
pub fn sixteen_characters(run: &[u8]) -> Result<&[u8; NIBBLES], Refusal> {
    run.try_into().map_err(|_| Refusal::Field)
}

impl Table {
    /// "decimalisation table holds a non-digit" is 25.
    pub fn of_characters(characters: &[u8; NIBBLES]) -> Result<Table, Refusal> {
        if !characters.iter().all(u8::is_ascii_digit) {
            return Err(Refusal::TableContent);
        }
        Ok(Table { digits: characters.map(|character| character - b'0') })
    }

    /// "The table turns the enciphered block's nibbles, from the left, into digits; the natural
    /// PIN is the first n". The length must have been judged before.
    pub fn natural_pin(&self, enciphered: u64, length: usize) -> NaturalPin {
        let mut values = [0; LONGEST_PIN];
        for (place, value) in values[..length].iter_mut().enumerate() {
            *value = self.digits[usize::from(nibble(enciphered, place))];
        }
        NaturalPin { values, length }
    }
}

/// As many digits as its PIN has.
#[derive(Clone, Copy, Debug, PartialEq, Eq)]
pub struct NaturalPin {
    values: [u8; LONGEST_PIN],
    length: usize,
}

impl NaturalPin {
    /// Handed in beside its PIN: a digit over 9 (20) before another length than the PIN's (24).
    pub fn handed_in(values: &[u8], pin: &Pin) -> Result<NaturalPin, Refusal> {
        only_digits(values)?;
        if values.len() != pin.length() {
            return Err(Refusal::PinLength);
        }
        let mut natural = NaturalPin { values: [0; LONGEST_PIN], length: values.len() };
        natural.values[..values.len()].copy_from_slice(values);
        Ok(natural)
    }

    pub fn digits(&self) -> &[u8] {
        &self.values[..self.length]
    }
}
