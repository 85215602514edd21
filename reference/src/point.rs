//! Where in a command a refusal points: request §4, "Tell me which character".

use crate::reply::Refusal;

/// A position in the command, counted from 0 with its header, and the number that the command's
/// own table gives a field.
#[derive(Clone, Copy, Debug, PartialEq, Eq)]
pub struct Point {
    pub place: u32,
    pub field: u32,
}

impl Point {
    /// Of what is done, and of every refusal that is not a field's.
    pub const NOWHERE: Point = Point { place: 0, field: 0 };

    /// "Leftovers and slices have field number 0."
    pub const NO_FIELD: u32 = 0;

    /// No command that has a frame is longer than 4,096 bytes.
    pub fn at(place: usize, field: u32) -> Point {
        Point { place: place as u32, field }
    }
}

/// A refusal of a command. Its number is for the host; where it points is for the server alone.
#[derive(Clone, Copy, Debug, PartialEq, Eq)]
pub struct Fault {
    pub refusal: Refusal,
    pub point: Point,
}

impl Fault {
    /// A refusal that is not a field's.
    pub fn nowhere(refusal: Refusal) -> Fault {
        Fault { refusal, point: Point::NOWHERE }
    }
}
