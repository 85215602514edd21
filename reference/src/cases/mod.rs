//! Case files: requests with the answers of this program, for a C host to replay.

pub mod blocks;
pub mod call;
pub mod case;
pub mod ciphers;
pub mod command_bytes;
pub mod command_damage;
pub mod commands;
pub mod demand;
pub mod dice;
pub mod draft;
pub mod file;
pub mod key_lengths;
pub mod keys;
pub mod lab;
pub mod lab_damage;
pub mod lab_keys;
pub mod mutation;
pub mod offsets;
pub mod parts;
pub mod pointed;
pub mod presented;
pub mod soak;
pub mod tally;
pub mod validation;
pub mod verification_damage;
pub mod verifications;
pub mod weak;

use crate::reply::Reply;
use case::Case;
use demand::Demand;
use dice::Dice;
use file::CaseFile;
use key_lengths::KeyLength;
use pointed::Pointed;
use std::io;
use tally::{Counted, Subject, Tally};

/// The parts of the box that a case file may speak of.
#[derive(Clone, Copy, Debug, PartialEq, Eq)]
pub enum Part {
    Blocks,
    Offsets,
    Commands,
    Verifications,
    Lab,
    Soak,
}

impl Part {
    pub fn of_name(name: &str) -> Option<Part> {
        match name {
            "blocks" => Some(Part::Blocks),
            "offsets" => Some(Part::Offsets),
            "commands" => Some(Part::Commands),
            "verifications" => Some(Part::Verifications),
            "lab" => Some(Part::Lab),
            "soak" => Some(Part::Soak),
            _ => None,
        }
    }

    pub fn demand(self) -> Option<Demand> {
        match self {
            Part::Blocks | Part::Offsets => None,
            Part::Commands => Some(commands::demand()),
            Part::Verifications => Some(verifications::demand()),
            Part::Lab => Some(lab::demand()),
            Part::Soak => Some(soak::demand()),
        }
    }

    /// Case number `index` of a file; the dice decide what it is.
    fn case(self, dice: &mut Dice, index: u64) -> Case {
        match self {
            Part::Blocks => blocks::case(dice),
            Part::Offsets => offsets::case(dice),
            Part::Commands => commands::case(dice, index),
            Part::Verifications => verifications::case(dice, index),
            Part::Lab => lab::case(dice, index),
            Part::Soak => soak::case(dice, index),
        }
    }

    /// Whose answers case number `index` counts among.
    fn subject(self, index: u64, case: &Case) -> Subject {
        match self {
            Part::Verifications => verifications::subject(index, case),
            Part::Lab => lab::subject(index, case),
            _ => case.call.into(),
        }
    }
}

/// Writes `count` cases. The same part, seed and count always give the same file. A file of many
/// cases in which an answer is scarce is a fault, as one that cannot be written is.
pub fn make(part: Part, path: &str, seed: u64, count: u64) -> Result<Tally, String> {
    let tally = write(part, path, seed, count).map_err(|fault| format!("{path}: {fault}"))?;
    let scarce = scarce(part, count, &tally);
    if scarce.is_empty() {
        Ok(tally)
    } else {
        Err(format!("{tally}\n{}", scarce.join("\n")))
    }
}

fn write(part: Part, path: &str, seed: u64, count: u64) -> io::Result<Tally> {
    let mut file = CaseFile::create(path)?;
    let mut dice = Dice::new(seed);
    let mut tally = Tally::default();
    for index in 0..count {
        let case = part.case(&mut dice, index);
        let answer = case.answer();
        tally.count(part.subject(index, &case), Counted::Number(answer.reply.number));
        count_pointed(&mut tally, &case, answer.reply);
        count_key_lengths(&mut tally, &case, answer.reply);
        file.add(&case, &answer)?;
    }
    file.finish()?;
    Ok(tally)
}

/// What a reply points at counts for the command whose code the case carries: the fields are its.
fn count_pointed(tally: &mut Tally, case: &Case, reply: Reply) {
    if let Some((code, pointed)) = Pointed::of(case, reply) {
        let subject = Subject { call: case.call, code: Some(code) };
        tally.count(subject, Counted::Pointed(pointed));
    }
}

/// Lengths of keys count for the call alone: they go by nothing in a command.
fn count_key_lengths(tally: &mut Tally, case: &Case, reply: Reply) {
    for length in KeyLength::of(case, reply) {
        tally.count(case.call, Counted::KeyLength(length));
    }
}

/// What the tally of a file of many cases lacks, a line for each answer.
pub fn scarce(part: Part, count: u64, tally: &Tally) -> Vec<String> {
    part.demand().map(|demand| demand.scarce(count, tally)).unwrap_or_default()
}
