//! Cases for the asking and the answering call on BK, and for the usual settings.

use super::case::{Call, Case};
use super::command_bytes;
use super::demand::{self, Demand};
use super::dice::Dice;
use super::draft::Draft;
use crate::command::BK;
use crate::settings::Settings;

pub const CALLS: [Call; 2] = [Call::Ask, Call::Answer];

pub fn demand() -> Demand {
    let mut dues = demand::of_command(&CALLS, &BK, None, 500);
    dues.extend(demand::of_points(&CALLS, &BK, 200));
    Demand { many: 500_000, dues }
}

/// The first case of a file asks for the usual settings: that call takes nothing, so that once is
/// enough. Every other case is a command.
pub fn case(dice: &mut Dice, index: u64) -> Case {
    if index == 0 {
        return usual();
    }
    let call = if dice.chance(30) { Call::Ask } else { Call::Answer };
    case_of(dice, call)
}

pub fn case_of(dice: &mut Dice, call: Call) -> Case {
    let draft = Draft::whole(dice, call, &BK);
    of_draft(dice, draft)
}

/// More than a third of the commands are left whole; some of the damaged ones are damaged twice,
/// so that the order of judging decides.
pub fn of_draft(dice: &mut Dice, mut draft: Draft) -> Case {
    match dice.below(100) {
        0..=35 => draft.into_case(),
        36..=72 => {
            draft.damage(dice);
            if dice.chance(25) {
                draft.damage(dice);
            }
            draft.into_case()
        }
        73..=82 => of_bytes(dice, draft, command_bytes::cut_at_a_field),
        83..=94 => of_bytes(dice, draft, |dice, _, command| {
            command_bytes::change_one(dice, command);
        }),
        _ => of_bytes(dice, draft, |dice, borders, command| {
            command_bytes::scatter(dice, borders[0], command);
        }),
    }
}

/// Its numbers are the settings that the call must hand back.
pub fn usual() -> Case {
    let Settings { header, restricted, variable } = Settings::usual();
    let numbers = vec![header as u64, u64::from(restricted), u64::from(variable)];
    Case { call: Call::Usual, numbers, runs: vec![], out: None }
}

/// A whole command, damaged by one who knows no more of it than where its fields end.
fn of_bytes(
    dice: &mut Dice,
    draft: Draft,
    damage: impl FnOnce(&mut Dice, &[usize], &mut Vec<u8>),
) -> Case {
    let borders = draft.borders();
    let mut case = draft.into_case();
    damage(dice, &borders, &mut case.runs[0]);
    case
}
