//! Changes to a case that know nothing of its call but the shape: numbers, runs and output.

use super::case::{Case, Parameter};
use super::command_bytes::{self, CHARACTERS};
use super::dice::Dice;
use super::parts::DIGITS;
use super::validation::HEX;

/// The longest run that the C host lends.
pub const LONGEST: usize = 32_768;

/// Numbers that some call permits: formats, check lengths, key indices, header lengths, flags.
const PERMITTED: [u64; 15] = [0, 1, 3, 4, 5, 6, 12, 16, 34, 35, 41, 42, 47, 48, 255];

/// One to a few small changes, most of them to the bytes of a run.
pub fn mutate(dice: &mut Dice, case: &mut Case) {
    let count = dice.pick(&[1, 1, 1, 2, 3, 5]);
    for _ in 0..count {
        match dice.below(12) {
            0 => change_number(dice, case),
            1 => exchange_runs(dice, case),
            _ => {
                let run = any_run(dice, case);
                mutate_run(dice, run);
            }
        }
    }
}

/// A run is cut at any length, also to nothing, or has bytes too many.
pub fn cut_or_lengthen(dice: &mut Dice, case: &mut Case) {
    let run = any_run(dice, case);
    match dice.below(8) {
        0 => run.clear(),
        1 => {
            run.pop();
        }
        2..=4 => run.truncate(dice.below(run.len() + 1)),
        5 => insert(run, run.len(), vec![dice.byte()]),
        6 => repeat_part(dice, run),
        _ => {
            let more = any_length(dice);
            insert(run, run.len(), any_bytes(dice, more));
        }
    }
}

/// Runs of any length that nobody made: all of them, or some.
pub fn scatter(dice: &mut Dice, case: &mut Case) {
    let percent = dice.pick(&[30, 60, 100]);
    for run in &mut case.runs {
        if dice.chance(percent) {
            let length = any_length(dice);
            *run = any_bytes(dice, length);
        }
    }
}

/// Every number, or some, at random. A call without numbers is left as it is.
pub fn draw_numbers(dice: &mut Dice, case: &mut Case) {
    let percent = dice.pick(&[30, 100]);
    for (number, &parameter) in case.numbers.iter_mut().zip(case.call.parameters()) {
        if dice.chance(percent) {
            *number = any_number(dice, *number, parameter);
        }
    }
}

/// An output of any length, often about the length that the call must be lent. A call that is
/// lent none is left as it is.
pub fn draw_output(dice: &mut Dice, case: &mut Case) {
    let Some(need) = case.call.need() else { return };
    let length = match dice.below(8) {
        0 => 0,
        1 => need - 1,
        2 => need,
        3 => need + 1,
        4 => dice.below(need),
        5 | 6 => any_length(dice),
        _ => dice.below(2 * need + 1),
    };
    case.out = Some(dice.bytes(length));
}

fn any_run<'a>(dice: &mut Dice, case: &'a mut Case) -> &'a mut Vec<u8> {
    let place = dice.below(case.runs.len());
    &mut case.runs[place]
}

fn change_number(dice: &mut Dice, case: &mut Case) {
    let parameters = case.call.parameters();
    if !parameters.is_empty() {
        let place = dice.below(parameters.len());
        case.numbers[place] = any_number(dice, case.numbers[place], parameters[place]);
    }
}

/// One run in the place of another.
fn exchange_runs(dice: &mut Dice, case: &mut Case) {
    let (one, other) = (dice.below(case.runs.len()), dice.below(case.runs.len()));
    case.runs.swap(one, other);
}

/// As far as the parameter carries it: edges, neighbours, permitted numbers with a high bit that
/// a careless narrowing loses, or any number.
fn any_number(dice: &mut Dice, own: u64, parameter: Parameter) -> u64 {
    let most = parameter.most();
    let permitted = dice.pick(&PERMITTED);
    let drawn = match dice.below(10) {
        0 => dice.pick(&[0, 1, most - 1, most, most / 2, most / 2 + 1]),
        1 => own.wrapping_add(1),
        2 => own.wrapping_sub(1),
        3 => own ^ 1 << dice.below(64),
        4 => permitted.wrapping_add(1),
        5 => permitted.wrapping_sub(1),
        6 => permitted + dice.pick(&[0, 1 << 8, 1 << 16, 1 << 31, 1 << 32, 1 << 63]),
        7 => dice.below(20) as u64,
        _ => dice.word(),
    };
    drawn & most
}

/// Short most often, but sometimes thousands of bytes.
fn any_length(dice: &mut Dice) -> usize {
    match dice.below(1000) {
        0 => dice.between(LONGEST - 20, LONGEST),
        1 => dice.below(LONGEST + 1),
        2..=19 => dice.below(5000),
        20..=99 => dice.below(300),
        100..=499 => dice.pick(&[4, 7, 8, 8, 9, 11, 12, 12, 13, 16, 17]),
        _ => dice.below(25),
    }
}

/// Bytes of one kind: any, digit values, or characters that a field may hold.
fn any_bytes(dice: &mut Dice, length: usize) -> Vec<u8> {
    match dice.below(6) {
        0 => dice.characters(length, DIGITS),
        1 => dice.characters(length, HEX),
        2 => dice.characters(length, b"\x00\x01\x02\x03\x04\x05\x06\x07\x08\x09"),
        3 => dice.characters(length, CHARACTERS),
        _ => dice.bytes(length),
    }
}

fn mutate_run(dice: &mut Dice, run: &mut Vec<u8>) {
    match dice.below(10) {
        0 => insert_some(dice, run),
        _ if run.is_empty() => {}
        1..=3 => command_bytes::change_one(dice, run),
        4 => exchange_bytes(dice, run),
        5 | 6 => change_kind(dice, run),
        7 => delete_some(dice, run),
        8 => repeat_part(dice, run),
        _ => level(dice, run),
    }
}

fn exchange_bytes(dice: &mut Dice, run: &mut [u8]) {
    let (one, other) = (dice.below(run.len()), dice.below(run.len()));
    run.swap(one, other);
}

/// A digit becomes a letter, a letter a digit or the other case of itself, any other byte one of
/// the characters that mean something somewhere.
fn change_kind(dice: &mut Dice, run: &mut [u8]) {
    let place = dice.below(run.len());
    run[place] = match run[place] {
        b'0'..=b'9' => dice.pick(b"ABCDEFGNPOabcdefnop:/"),
        own if own.is_ascii_alphabetic() && dice.chance(50) => own ^ 0x20,
        own if own.is_ascii_alphabetic() => dice.pick(DIGITS),
        _ => dice.pick(b"0123456789ABCDEFNPSTUV;%\x00\x09\x0A\x0F\x19\x20\x7E\x7F\x80\xFF"),
    };
}

fn insert_some(dice: &mut Dice, run: &mut Vec<u8>) {
    let (place, count) = (dice.below(run.len() + 1), dice.between(1, 4));
    insert(run, place, any_bytes(dice, count));
}

/// What no longer fits a run is lost.
fn insert(run: &mut Vec<u8>, place: usize, bytes: Vec<u8>) {
    run.splice(place..place, bytes);
    run.truncate(LONGEST);
}

/// A part of the run, at most so long.
fn part(dice: &mut Dice, run: &[u8], longest: usize) -> std::ops::Range<usize> {
    let first = dice.below(run.len() + 1);
    first..first + dice.below(longest.min(run.len() - first) + 1)
}

fn delete_some(dice: &mut Dice, run: &mut Vec<u8>) {
    let some = part(dice, run, 4);
    run.drain(some);
}

/// A part stands a second time, behind itself.
fn repeat_part(dice: &mut Dice, run: &mut Vec<u8>) {
    let repeated = part(dice, run, LONGEST);
    insert(run, repeated.end, run[repeated].to_vec());
}

/// A part is all of one byte.
fn level(dice: &mut Dice, run: &mut [u8]) {
    let levelled = part(dice, run, 16);
    let byte = dice.pick(&[0x00, 0x09, 0x0F, b' ', b'0', b'9', b'A', b'F', b'N', 0x7F, 0xFF]);
    run[levelled].fill(byte);
}
