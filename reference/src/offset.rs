//! The IBM 3624 offset: what lies between the natural PIN and the PIN.

use crate::natural::NaturalPin;
use crate::pin::Pin;
use crate::reply::Refusal;
use crate::settings::Settings;

/// An offset stands left in 12 characters, filled with F.
pub const OFFSET_CHARACTERS: usize = 12;

/// "check length outside 4 to 12" is 15, also where the offset has variable length.
pub fn check_length(check: u32) -> Result<usize, Refusal> {
    match check {
        4..=12 => Ok(check as usize),
        _ => Err(Refusal::Field),
    }
}

/// How many of the PIN's digits the offset covers: the check length m, or the PIN's own length n
/// where the offset has variable length. "check length longer than the PIN" is 81.
pub fn covered(settings: Settings, check: usize, pin: &Pin) -> Result<usize, Refusal> {
    if settings.variable {
        Ok(pin.length())
    } else if check <= pin.length() {
        Ok(check)
    } else {
        Err(Refusal::CheckLength)
    }
}

/// "The offset covers the **last** m digits: PIN digit less natural digit", unreduced.
pub fn differences<'a>(
    pin: &'a Pin,
    natural: &'a NaturalPin,
    covered: usize,
) -> impl Iterator<Item = i8> + 'a {
    let first = pin.length() - covered;
    let pairs = pin.digits()[first..].iter().zip(&natural.digits()[first..]);
    pairs.map(|(&digit, &natural)| digit as i8 - natural as i8)
}

/// The same differences "modulo ten", as an offset's 12 characters.
pub fn characters(pin: &Pin, natural: &NaturalPin, covered: usize) -> [u8; OFFSET_CHARACTERS] {
    let mut offset = [b'F'; OFFSET_CHARACTERS];
    for (character, difference) in offset.iter_mut().zip(differences(pin, natural, covered)) {
        *character = b'0' + difference.rem_euclid(10) as u8;
    }
    offset
}

/// An offset presented to a verdict.
#[derive(Clone, Copy, Debug, PartialEq, Eq)]
pub struct Offset {
    characters: [u8; OFFSET_CHARACTERS],
    digits: usize,
}

impl Offset {
    /// "the 12-character offset: 4 to 12 digits, then only F, else 15".
    pub fn of_characters(run: &[u8]) -> Result<Offset, Refusal> {
        let characters: [u8; OFFSET_CHARACTERS] = run.try_into().map_err(|_| Refusal::Field)?;
        let digits = characters.iter().take_while(|character| character.is_ascii_digit()).count();
        if digits < 4 || characters[digits..].iter().any(|&character| character != b'F') {
            return Err(Refusal::Field);
        }
        Ok(Offset { characters, digits })
    }

    /// "an offset without exactly m digits is 81".
    pub fn has_digits(&self, covered: usize) -> Result<(), Refusal> {
        if self.digits == covered {
            Ok(())
        } else {
            Err(Refusal::CheckLength)
        }
    }

    pub fn is(&self, characters: [u8; OFFSET_CHARACTERS]) -> bool {
        self.characters == characters
    }
}
