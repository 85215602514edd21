//! Cases for the calls of a lab that has no key box: whole commands with two clear keys, ciphers,
//! and the PIN block of a command.

use super::case::{Call, Case};
use super::ciphers;
use super::commands;
use super::demand::{self, Demand, Due};
use super::dice::Dice;
use super::draft::Draft;
use super::key_lengths::Key;
use super::tally::{Counted, Subject};
use super::verifications;
use crate::command::{Command, Purpose, COMMANDS};
use crate::reply::Reply;

/// All but the answering call. A PIN block has a whole command to be wrong in: it comes twice.
const OTHERS: [Call; 8] = [
    Call::DesEncipher,
    Call::DesDecipher,
    Call::TdesEncipher,
    Call::TdesDecipher,
    Call::KeyCheck,
    Call::OddParity,
    Call::PinBlock,
    Call::PinBlock,
];

/// Each number of each call; for each of the commands apart each number of the answering call, all
/// that either call can point at; and keys of every length that is counted.
pub fn demand() -> Demand {
    let mut dues = demand::of_calls(&ciphers::CALLS, 500);
    dues.extend(demand::of_calls(&[Call::PinBlock], 100));
    for command in COMMANDS {
        dues.extend(demand::of_points(&[Call::PinBlock], command, 20));
        dues.extend(numbers_of_answers(command));
        dues.extend(demand::of_points(&[Call::LabAnswer], command, 50));
    }
    dues.extend(demand::of_key_lengths(&ciphers::CALLS, &[Key::Only], 100));
    dues.extend(demand::of_key_lengths(&[Call::LabAnswer], &[Key::PinKey, Key::Pvk], 100));
    Demand { many: 200_000, dues }
}

/// What is judged behind the fields more often, and most often what is done.
fn numbers_of_answers(command: &Command) -> Vec<Due> {
    let mut dues = demand::of_command(&[Call::LabAnswer], command, Some(command.code), 100);
    for due in &mut dues {
        due.times = match due.counted {
            Counted::Number(0) => 5000,
            Counted::Number(Reply::DOES_NOT_VERIFY) => 2000,
            Counted::Number(10 | 11 | 20 | 24 | 81 | 86) => 300,
            _ => due.times,
        };
    }
    dues
}

/// Every second case is a command with lab keys, BK, DA and EA by turns; between them the other
/// calls come by turns.
pub fn case(dice: &mut Dice, index: u64) -> Case {
    let turn = (index / 2) as usize;
    match (index % 2, OTHERS[turn % OTHERS.len()]) {
        (0, _) => answer(dice, meant(index)),
        (_, Call::PinBlock) => of_any_command(dice, Call::PinBlock),
        (_, cipher) => ciphers::case_of(dice, cipher),
    }
}

fn meant(index: u64) -> &'static Command {
    COMMANDS[(index / 2) as usize % COMMANDS.len()]
}

/// A quarter of the offsets to be verified are other ones before any damage is done.
fn answer(dice: &mut Dice, command: &'static Command) -> Case {
    let mut draft = Draft::sealed(dice, command);
    if command.purpose == Purpose::VerifyOffset && dice.chance(25) {
        draft.put_other_offset(dice);
    }
    commands::of_draft(dice, draft)
}

/// A case of any call that takes a command, each of the commands as often as another.
pub fn of_any_command(dice: &mut Dice, call: Call) -> Case {
    let command = dice.pick(&COMMANDS);
    match (call, command.purpose) {
        (Call::LabAnswer, _) => answer(dice, command),
        (_, Purpose::MakeOffset) => commands::case_of(dice, call),
        (_, Purpose::VerifyOffset) => verifications::case_of(dice, call, command),
    }
}

/// A command counts for the code that it carries; where that is none of the three or cannot be
/// told, for the one that was meant.
pub fn subject(index: u64, case: &Case) -> Subject {
    if case.call != Call::LabAnswer {
        return case.call.into();
    }
    let carried = case.code();
    let command = COMMANDS.into_iter().find(|command| carried == Some(command.code));
    Subject { call: case.call, code: Some(command.unwrap_or(meant(index)).code) }
}
