//! How long the keys are that a call was handed and has judged.

use super::case::{Call, Case};
use super::ciphers::LENGTHS;
use crate::reply::{Refusal, Reply};
use std::fmt;

#[derive(Clone, Copy, Debug, PartialEq, Eq, PartialOrd, Ord)]
pub enum Key {
    /// That of a call which has but one.
    Only,
    PinKey,
    Pvk,
}

/// One of the lengths that are counted.
#[derive(Clone, Copy, Debug, PartialEq, Eq, PartialOrd, Ord)]
pub struct KeyLength {
    pub key: Key,
    pub bytes: usize,
}

impl KeyLength {
    /// Of the keys of a case. A key that the call came nowhere near shows nothing.
    pub fn of(case: &Case, reply: Reply) -> Vec<KeyLength> {
        let keys: &[Key] = match case.call {
            Call::DesEncipher | Call::DesDecipher => &[Key::Only],
            Call::TdesEncipher | Call::TdesDecipher => &[Key::Only],
            Call::KeyCheck | Call::OddParity => &[Key::Only],
            Call::LabAnswer if fields_are_in_order(case, reply) => &[Key::PinKey, Key::Pvk],
            _ => &[],
        };
        if reply.number == Refusal::OutputShort.number() {
            return vec![];
        }
        let lengths = keys.iter().zip(key_runs(case)).map(|(&key, run)| (key, run.len()));
        let counted = lengths.filter(|(_, bytes)| LENGTHS.contains(bytes));
        counted.map(|(key, bytes)| KeyLength { key, bytes }).collect()
    }
}

/// A command stands before its keys; a block stands behind.
fn key_runs(case: &Case) -> &[Vec<u8>] {
    &case.runs[usize::from(case.call.takes_command())..]
}

/// The reply is none of the frame and of the fields: it is of the keys, or judged behind them.
fn fields_are_in_order(case: &Case, reply: Reply) -> bool {
    let behind = [0, 1, 10, 11, 20, 24, 81, 86].contains(&reply.number);
    let at_the_end = reply.field == 0 && reply.place as usize == case.runs[0].len();
    behind || reply.number == Refusal::Field.number() && at_the_end
}

impl fmt::Display for KeyLength {
    fn fmt(&self, text: &mut fmt::Formatter<'_>) -> fmt::Result {
        let name = match self.key {
            Key::Only => "key",
            Key::PinKey => "PIN key",
            Key::Pvk => "PVK",
        };
        text.pad(&format!("{name}, {} bytes", self.bytes))
    }
}
