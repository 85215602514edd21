//! Cases for a soak: every call in turn, with what it is handed changed in ways that know nothing
//! of the call.

use super::case::{Call, Case};
use super::demand::{self, Demand};
use super::dice::Dice;
use super::mutation;
use super::{blocks, ciphers, commands, lab, offsets};

/// The calls that take something.
pub const CALLS: [Call; 22] = [
    Call::ReadBlock,
    Call::WriteBlock,
    Call::Translate,
    Call::ValidationBlock,
    Call::NaturalPin,
    Call::Offset,
    Call::OffsetOfDigits,
    Call::Differences,
    Call::OffsetVerdict,
    Call::PvvInput,
    Call::Pvv,
    Call::PvvVerdict,
    Call::Ask,
    Call::Answer,
    Call::DesEncipher,
    Call::DesDecipher,
    Call::TdesEncipher,
    Call::TdesDecipher,
    Call::KeyCheck,
    Call::OddParity,
    Call::LabAnswer,
    Call::PinBlock,
];

pub fn demand() -> Demand {
    Demand { many: 1_400_000, dues: demand::of_calls(&CALLS, 100) }
}

/// The first case of a file asks for the usual settings, as in a file of commands. The others go
/// through the calls in turn. Now and then a case is changed in a second way, so that the order
/// of judging decides.
pub fn case(dice: &mut Dice, index: u64) -> Case {
    if index == 0 {
        return commands::usual();
    }
    let turn = (index - 1) % CALLS.len() as u64;
    let mut case = made(dice, CALLS[turn as usize]);
    change(dice, &mut case);
    if dice.chance(15) {
        change(dice, &mut case);
    }
    case
}

/// A case of the call's own maker, whole or damaged.
fn made(dice: &mut Dice, call: Call) -> Case {
    if blocks::CALLS.contains(&call) {
        blocks::case_of(dice, call)
    } else if offsets::CALLS.contains(&call) {
        offsets::case_of(dice, call)
    } else if ciphers::CALLS.contains(&call) {
        ciphers::case_of(dice, call)
    } else {
        lab::of_any_command(dice, call)
    }
}

/// One of the ways in which an input is made.
fn change(dice: &mut Dice, case: &mut Case) {
    match dice.below(100) {
        0..=27 => {}
        28..=59 => mutation::mutate(dice, case),
        60..=74 => mutation::cut_or_lengthen(dice, case),
        75..=84 => mutation::scatter(dice, case),
        85..=93 => mutation::draw_numbers(dice, case),
        _ => mutation::draw_output(dice, case),
    }
}
