//! How often each call answered each number, what its replies to commands pointed at, and how long
//! the keys were.

use super::case::Call;
use super::key_lengths::KeyLength;
use super::pointed::Pointed;
use crate::command::CODE;
use std::collections::BTreeMap;
use std::fmt;

/// Whose answers are counted: a call's, or a call's to one command.
#[derive(Clone, Copy, Debug, PartialEq, Eq, PartialOrd, Ord)]
pub struct Subject {
    pub call: Call,
    pub code: Option<[u8; CODE]>,
}

impl From<Call> for Subject {
    fn from(call: Call) -> Subject {
        Subject { call, code: None }
    }
}

impl fmt::Display for Subject {
    fn fmt(&self, text: &mut fmt::Formatter<'_>) -> fmt::Result {
        let code = self.code.map(|code| format!(" {}", code.escape_ascii())).unwrap_or_default();
        text.pad(&format!("{}{code}", self.call.name()))
    }
}

/// What is counted of an answer: its number; where it points into a command, at what; and the
/// lengths of the keys that it judged.
#[derive(Clone, Copy, Debug, PartialEq, Eq, PartialOrd, Ord)]
pub enum Counted {
    Number(u32),
    Pointed(Pointed),
    KeyLength(KeyLength),
}

impl fmt::Display for Counted {
    fn fmt(&self, text: &mut fmt::Formatter<'_>) -> fmt::Result {
        match self {
            Counted::Number(number) => write!(text, "answers {number:02}"),
            Counted::Pointed(pointed) => write!(text, "points at {pointed}"),
            Counted::KeyLength(length) => write!(text, "judges {length}"),
        }
    }
}

#[derive(Default)]
pub struct Tally {
    counts: BTreeMap<(Subject, Counted), u64>,
}

impl Tally {
    pub fn count(&mut self, subject: impl Into<Subject>, counted: Counted) {
        *self.counts.entry((subject.into(), counted)).or_insert(0) += 1;
    }

    /// Every case has one number.
    pub fn total(&self) -> u64 {
        self.sum(|counted| matches!(counted, Counted::Number(_)))
    }

    pub fn of_number(&self, number: u32) -> u64 {
        self.sum(|counted| counted == Counted::Number(number))
    }

    pub fn met(&self, subject: impl Into<Subject>, counted: Counted) -> u64 {
        self.counts.get(&(subject.into(), counted)).copied().unwrap_or(0)
    }

    fn sum(&self, wanted: impl Fn(Counted) -> bool) -> u64 {
        let wanted = self.counts.iter().filter(|((_, counted), _)| wanted(*counted));
        wanted.map(|(_, count)| count).sum()
    }
}

/// Done is what is answered with 00; that a parity is not odd is 0 as well.
impl fmt::Display for Tally {
    fn fmt(&self, text: &mut fmt::Formatter<'_>) -> fmt::Result {
        for ((subject, counted), count) in &self.counts {
            match counted {
                Counted::Number(number) => {
                    writeln!(text, "{subject:<18} {number:>03} {count:>9}")?;
                }
                Counted::Pointed(pointed) => {
                    writeln!(text, "{subject:<18} at {pointed:<13} {count:>9}")?;
                }
                Counted::KeyLength(length) => {
                    writeln!(text, "{subject:<18} {length:<17} {count:>9}")?;
                }
            }
        }
        let done = self.of_number(0) - self.met(Call::OddParity, Counted::Number(0));
        let share = 100 * done / self.total().max(1);
        write!(text, "{} cases, {} of them done ({} %)", self.total(), done, share)
    }
}
