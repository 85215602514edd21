//! What the cases of the calls that read a block below the command level hold.

mod common;

use common::format_03::Rubbish;
use common::walk::every;
use reference::cases::case::{Call, Case};
use reference::cases::dice::Dice;
use reference::cases::{blocks, offsets};
use std::collections::BTreeMap;

const COUNT: u64 = 400_000;

/// The format and the block that a case's call reads, if it reads one.
fn read(case: &Case) -> Option<(u64, &[u8])> {
    let place = match case.call {
        Call::ReadBlock | Call::PvvInput | Call::PvvVerdict => 0,
        Call::Translate | Call::Offset | Call::OffsetVerdict => 3,
        _ => return None,
    };
    Some((case.numbers[place], &case.runs[0]))
}

/// Rubbish behind the first F of a block of format 03, by the call that met it.
fn rubbish(draw: fn(&mut Dice) -> Case) -> BTreeMap<Call, Rubbish> {
    let mut dice = Dice::new(13);
    let mut met: BTreeMap<Call, Rubbish> = BTreeMap::new();
    for case in (0..COUNT).map(|_| draw(&mut dice)) {
        if let Some((3, block)) = read(&case) {
            met.entry(case.call).or_default().look(block, case.answer().reply.number);
        }
    }
    met
}

#[test]
fn rubbish_in_block_cases() {
    let met = rubbish(blocks::case);
    assert_eq!(Vec::from_iter(met.keys()), [&Call::ReadBlock, &Call::Translate]);
    for rubbish in met.values() {
        rubbish.assert_met(200);
        assert_eq!(Vec::from_iter(rubbish.alone.iter().copied()), every(5..=15));
    }
}

/// Of each of the four calls; more than 200 times of all together.
#[test]
fn rubbish_in_offset_cases() {
    let met = rubbish(offsets::case);
    let calls = [Call::Offset, Call::OffsetVerdict, Call::PvvInput, Call::PvvVerdict];
    assert_eq!(Vec::from_iter(met.keys().copied()), calls);
    met.values().for_each(|rubbish| rubbish.assert_met(50));
}
