//! What the cases of a soak hold: every call in turn, nothing that the C face cannot carry, and
//! each extreme of what a call is handed.

use reference::cases::case::{Call, Case, Parameter};
use reference::cases::dice::Dice;
use reference::cases::mutation::LONGEST;
use reference::cases::tally::Tally;
use reference::cases::{scarce, soak, Part};
use std::collections::BTreeSet;

const COUNT: u64 = 660_000;

/// Shows every case of a file but the first.
fn each(mut look: impl FnMut(u64, Case)) {
    let mut dice = Dice::new(5);
    (1..=COUNT).for_each(|index| look(index, soak::case(&mut dice, index)));
}

/// What a question finds in the cases, with the call and a place in it.
fn found<T: Ord>(mut question: impl FnMut(&Case) -> Vec<T>) -> BTreeSet<(Call, usize, T)> {
    let mut set = BTreeSet::new();
    each(|_, case| {
        for (place, answer) in question(&case).into_iter().enumerate() {
            set.insert((case.call, place, answer));
        }
    });
    set
}

#[test]
fn calls_come_in_turn() {
    assert_eq!(soak::case(&mut Dice::new(5), 0).call, Call::Usual);
    // the code between these is that of the usual settings
    let codes = Vec::from_iter((1..=14).chain(16..=23));
    each(|index, case| assert_eq!(case.call.code(), codes[(index - 1) as usize % 22]));
}

#[test]
fn the_c_face_carries_every_case() {
    each(|_, case| {
        let parameters = case.call.parameters();
        assert_eq!(case.numbers.len(), parameters.len());
        assert!(case.numbers.iter().zip(parameters).all(|(number, its)| *number <= its.most()));
        assert!(case.runs.iter().chain(&case.out).all(|run| run.len() <= LONGEST));
        assert_eq!(case.out.is_some(), case.call.need().is_some());
    });
}

/// Neither a number that the list lacks nor one that it has too many.
#[test]
fn every_call_answers_the_numbers_of_its_list() {
    let met = found(|case| vec![case.answer().reply.number]);
    let listed = |call: Call| call.answers().iter().map(move |&number| (call, 0, number));
    assert_eq!(met, soak::CALLS.into_iter().flat_map(listed).collect());
}

#[test]
fn numbers_reach_their_edges() {
    let met = found(|case| case.numbers.clone());
    for call in soak::CALLS {
        for (place, parameter) in call.parameters().iter().enumerate() {
            let most = parameter.most();
            for edge in [0, 1, most / 2, most - 1, most] {
                assert!(met.contains(&(call, place, edge)), "{} {place}: {edge}", call.name());
            }
            let bytes = (0..=255).filter(|&byte| met.contains(&(call, place, byte))).count();
            assert!(*parameter != Parameter::Flag || bytes > 128, "{} {place}", call.name());
        }
    }
}

/// Of every run: nothing at all, a few bytes of any number, and more than any field has.
#[test]
fn runs_are_of_any_length() {
    let lengths = found(|case| case.runs.iter().map(Vec::len).collect());
    let runs: BTreeSet<_> = lengths.iter().map(|&(call, place, _)| (call, place)).collect();
    assert_eq!(runs.len(), 50);
    for (call, place) in runs {
        let seen = |length| lengths.contains(&(call, place, length));
        assert!((0..25).all(seen), "{} {place}", call.name());
        assert!((4097..LONGEST).any(seen), "{} {place}", call.name());
    }
}

#[test]
fn outputs_are_of_any_length() {
    let lengths = found(|case| case.out.iter().map(Vec::len).collect());
    for call in soak::CALLS {
        let Some(need) = call.need() else { continue };
        let seen = |length| lengths.contains(&(call, 0, length));
        assert!([0, 1, need - 1, need, need + 1].into_iter().all(seen), "{}", call.name());
        assert!((0..=2 * need).filter(|&length| seen(length)).count() > need, "{}", call.name());
        assert!((1000..LONGEST).any(seen), "{}", call.name());
    }
}

/// A soak of so many cases must hold every answer of every call.
#[test]
fn scarce_answers_are_a_fault() {
    let many = soak::demand().many;
    assert_eq!(many, 1_400_000);
    assert!(scarce(Part::Soak, many - 1, &Tally::default()).is_empty());
    assert_eq!(scarce(Part::Soak, many, &Tally::default()).len(), 151);
}

/// Each command is among the inputs of all calls that take one, and comes as far as its call can.
#[test]
fn every_command_is_done() {
    let mut met = BTreeSet::new();
    each(|_, case| {
        let number = case.answer().reply.number;
        if case.call.takes_command() && number < 2 {
            let header = case.numbers[0] as usize;
            met.insert((case.call, number, case.runs[0][header..header + 2].to_vec()));
        }
    });
    let of_codes = |call, number, codes: &[&[u8]]| {
        let seen = |code: &&[u8]| met.contains(&(call, number, code.to_vec()));
        codes.iter().all(seen)
    };
    assert!(of_codes(Call::Ask, 0, &[b"BK", b"DA", b"EA"]));
    assert!(of_codes(Call::PinBlock, 0, &[b"BK", b"DA", b"EA"]));
    for call in [Call::Answer, Call::LabAnswer] {
        assert!(of_codes(call, 0, &[b"BK", b"DA", b"EA"]));
        assert!(of_codes(call, 1, &[b"DA", b"EA"]));
    }
    assert_eq!(met.len(), 2 * 3 + 2 * (3 + 2));
}
