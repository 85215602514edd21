//! Cases for the ciphers, the check value and the parity of a key.

use super::case::{Call, Case};
use super::dice::Dice;
use super::lab_keys::{self, LAB_LENGTHS};
use super::parts;

pub const CALLS: [Call; 6] = [
    Call::DesEncipher,
    Call::DesDecipher,
    Call::TdesEncipher,
    Call::TdesDecipher,
    Call::KeyCheck,
    Call::OddParity,
];

/// Lengths that one of the calls takes, or that lie beside one.
pub const LENGTHS: [usize; 11] = [0, 7, 8, 9, 15, 16, 17, 23, 24, 25, 32];

/// Half of the cases are left whole; some of the others are damaged twice, so that the order of
/// judging decides.
pub fn case_of(dice: &mut Dice, call: Call) -> Case {
    let mut case = whole(dice, call);
    if dice.chance(50) {
        damage(dice, &mut case);
        if dice.chance(25) {
            damage(dice, &mut case);
        }
    }
    case
}

/// A cipher does not look at a key's parity: in half of the cases it is left to chance.
fn whole(dice: &mut Dice, call: Call) -> Case {
    let lengths: &[usize] = match call {
        Call::DesEncipher | Call::DesDecipher => &[8],
        Call::OddParity => &LENGTHS,
        _ => &LAB_LENGTHS,
    };
    let length = dice.pick(lengths);
    let good = call == Call::OddParity || dice.chance(50);
    let key = if good { lab_keys::of_length(dice, length) } else { dice.bytes(length) };
    let runs = match call {
        Call::KeyCheck | Call::OddParity => vec![key],
        _ => vec![key, block(dice)],
    };
    Case { call, numbers: vec![], runs, out: parts::enough_out(dice, call) }
}

fn block(dice: &mut Dice) -> Vec<u8> {
    match dice.below(8) {
        0 => vec![0; 8],
        1 => (1_u64 << dice.below(64)).to_be_bytes().to_vec(),
        _ => dice.bytes(8),
    }
}

fn damage(dice: &mut Dice, case: &mut Case) {
    if case.call == Call::OddParity {
        return lab_keys::spoil_parity(dice, &mut case.runs[0]);
    }
    match dice.below(5) {
        0 => case.out = parts::short_out(dice, case.call),
        1 | 2 => set_length(dice, &mut case.runs[0]),
        _ => {
            if let Some(block) = case.runs.get_mut(1) {
                set_length(dice, block);
            }
        }
    }
}

/// Another length most often, its own now and then.
fn set_length(dice: &mut Dice, run: &mut Vec<u8>) {
    let length = match dice.below(8) {
        0 => dice.below(41),
        1 => run.len() + 256,
        _ => dice.pick(&LENGTHS),
    };
    *run = dice.bytes(length);
}
