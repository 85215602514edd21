//! Walking over a command from the left.

use crate::point::{Fault, Point};
use crate::reply::Refusal;
use crate::validation::hex_value;

/// A command, and the place from which on it has not been read yet.
pub struct Cursor<'a> {
    command: &'a [u8],
    place: usize,
}

/// "printable characters (20 to 7E)".
pub fn printable(character: &u8) -> bool {
    (0x20..=0x7E).contains(character)
}

/// A number written with digit characters only.
pub fn decimal(characters: &[u8]) -> Option<u32> {
    characters.iter().try_fold(0, |number, &character| {
        character.is_ascii_digit().then(|| 10 * number + u32::from(character - b'0'))
    })
}

impl<'a> Cursor<'a> {
    /// Behind the command's first `place` bytes, which it must have.
    pub fn new(command: &'a [u8], place: usize) -> Cursor<'a> {
        Cursor { command, place }
    }

    pub fn rest(&self) -> &'a [u8] {
        &self.command[self.place..]
    }

    /// The next byte, as the first of a field.
    pub fn point(&self, field: u32) -> Point {
        Point::at(self.place, field)
    }

    /// Reads a field. Wherever in it a fault is found, "the byte position in the command where
    /// the field that failed begins" is this one.
    pub fn field<T>(
        &mut self,
        number: u32,
        read: impl FnOnce(&mut Cursor<'a>) -> Result<T, Refusal>,
    ) -> Result<T, Fault> {
        let point = self.point(number);
        read(self).map_err(|refusal| Fault { refusal, point })
    }

    /// The next `count` characters; "a missing character is judged before a wrong one".
    pub fn take_or(&mut self, count: usize, missing: Refusal) -> Result<&'a [u8], Refusal> {
        let taken = self.rest().get(..count).ok_or(missing)?;
        self.place += count;
        Ok(taken)
    }

    /// The next `count` characters, 15 where they are missing.
    pub fn take(&mut self, count: usize) -> Result<&'a [u8], Refusal> {
        self.take_or(count, Refusal::Field)
    }

    /// The next `count` hex characters, capitals only, else 15.
    pub fn take_hex(&mut self, count: usize) -> Result<&'a [u8], Refusal> {
        let field = self.take(count)?;
        if field.iter().all(|&character| hex_value(character).is_some()) {
            Ok(field)
        } else {
            Err(Refusal::Field)
        }
    }

    /// Two digits as a number, else 15.
    pub fn take_two_digits(&mut self) -> Result<u32, Refusal> {
        decimal(self.take(2)?).ok_or(Refusal::Field)
    }

    /// Steps over an optional part's mark, if it stands here.
    pub fn step_over(&mut self, mark: u8) -> bool {
        let stands_here = self.rest().first() == Some(&mark);
        self.place += usize::from(stands_here);
        stands_here
    }
}
