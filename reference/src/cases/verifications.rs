//! Cases for the asking and the answering call on the verifying commands, DA and EA.

use super::case::{Call, Case};
use super::commands::{self, CALLS};
use super::demand::{self, Demand};
use super::dice::Dice;
use super::draft::Draft;
use super::tally::{Counted, Subject};
use crate::command::{Command, BK, DA, EA};
use crate::reply::Reply;

pub static COMMANDS: [&Command; 2] = [&DA, &EA];

/// Each number of each call and all that it can point at, for each of the commands apart; verdicts
/// far more often.
pub fn demand() -> Demand {
    let mut dues = vec![];
    for command in COMMANDS {
        dues.extend(demand::of_command(&CALLS, command, Some(command.code), 500));
        dues.extend(demand::of_points(&CALLS, command, 200));
    }
    let verdicts = [0, Reply::DOES_NOT_VERIFY].map(Counted::Number);
    for due in &mut dues {
        if due.subject.call == Call::Answer && verdicts.contains(&due.counted) {
            due.times = 5000;
        }
    }
    Demand { many: 300_000, dues }
}

/// The commands come by turns.
pub fn case(dice: &mut Dice, index: u64) -> Case {
    let call = if dice.chance(40) { Call::Ask } else { Call::Answer };
    case_of(dice, call, meant(index))
}

fn meant(index: u64) -> &'static Command {
    COMMANDS[(index % 2) as usize]
}

/// A case counts for the command whose code it carries; where that is neither of the two or
/// cannot be told, for the one that was meant.
pub fn subject(index: u64, case: &Case) -> Subject {
    let carried = case.code();
    let command = COMMANDS.into_iter().find(|command| carried == Some(command.code));
    Subject { call: case.call, code: Some(command.unwrap_or(meant(index)).code) }
}

/// A PIN that does not verify is no damage to its command, so that a quarter of the offsets are
/// other ones before any damage is done. Now and then the code stands over the fields of BK.
pub fn case_of(dice: &mut Dice, call: Call, command: &'static Command) -> Case {
    let mut draft = match dice.below(50) {
        0 => Draft { code: command.code.to_vec(), ..Draft::whole(dice, call, &BK) },
        _ => Draft::whole(dice, call, command),
    };
    if dice.chance(25) {
        draft.put_other_offset(dice);
    }
    commands::of_draft(dice, draft)
}
