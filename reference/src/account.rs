//! The account: the 12 rightmost digits of the card number without its check digit.

use crate::reply::Refusal;

pub const ACCOUNT_DIGITS: usize = 12;

/// The account field: four zero nibbles and the 12 account digits, one to a nibble.
#[derive(Clone, Copy, Debug, PartialEq, Eq)]
pub struct Account {
    field: u64,
}

impl Account {
    /// Twelve digit characters, anything else is 15.
    pub fn of_characters(characters: &[u8]) -> Result<Account, Refusal> {
        let characters: &[u8; ACCOUNT_DIGITS] =
            characters.try_into().map_err(|_| Refusal::Field)?;
        let mut field = 0;
        for &character in characters {
            if !character.is_ascii_digit() {
                return Err(Refusal::Field);
            }
            field = field << 4 | u64::from(character - b'0');
        }
        Ok(Account { field })
    }

    pub fn field(self) -> u64 {
        self.field
    }
}
