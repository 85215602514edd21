//! What the cases of the lab hold, and that its answering call is the core's with what two keys
//! make.

mod common;

use common::walk::{self, every, Form, Walked};
use reference::cases::case::{Call, Case};
use reference::cases::dice::Dice;
use reference::cases::tally::{Counted, Subject, Tally};
use reference::cases::{lab, scarce, Part};
use reference::{
    answer, ask, odd_parity, pin_block, tdes_decipher, tdes_encipher, Reply, Settings,
};
use std::collections::{BTreeMap, BTreeSet};

/// Half of what the demand is made for.
const COUNT: u64 = 100_000;

/// Shows every case of a file with its reply.
fn each(mut look: impl FnMut(Case, Reply)) {
    let mut dice = Dice::new(31);
    for index in 0..COUNT {
        let case = lab::case(&mut dice, index);
        let reply = case.answer().reply;
        look(case, reply);
    }
}

/// The same of the answering call alone.
fn each_answer(mut look: impl FnMut(Case, Reply)) {
    each(|case, reply| {
        if case.call == Call::LabAnswer {
            look(case, reply);
        }
    });
}

fn settings(case: &Case) -> Settings {
    let [header, restricted, variable] = [0, 1, 2].map(|place| case.numbers[place]);
    Settings::of_face(header as usize, restricted as u8, variable as u8)
}

fn good_length(key: &[u8]) -> bool {
    [16, 24].contains(&key.len())
}

/// Whether the fields were in order, so that the keys were judged.
fn is_of_keys(case: &Case, reply: Reply) -> bool {
    ask(settings(case), &case.runs[0], &mut [0; 8]).number == 0 && reply.number != 901
}

/// Half of the cases, the commands by turns.
#[test]
fn every_second_case_is_a_command() {
    let mut calls: BTreeMap<Call, u64> = BTreeMap::new();
    each(|case, _| *calls.entry(case.call).or_default() += 1);
    assert_eq!(calls[&Call::LabAnswer], COUNT / 2);
    assert_eq!(calls[&Call::PinBlock], COUNT / 8);
    assert_eq!(Vec::from_iter(calls.keys().map(|call| call.code())), every(16..=23));
    for call in [Call::DesEncipher, Call::TdesDecipher, Call::KeyCheck, Call::OddParity] {
        assert_eq!(calls[&call], COUNT / 16);
    }
}

/// What a server does that asks, ciphers with the lab's keys and answers by itself.
fn by_hand(case: &Case, out: &mut [u8]) -> Reply {
    let [command, pin_key, pvk] = [0, 1, 2].map(|run| &case.runs[run][..]);
    let (settings, mut sealed, mut clear) = (settings(case), [0; 16], [0; 8]);
    let (mut validation, mut enciphered) = ([0; 8], [0; 8]);
    pin_block(settings, command, &mut sealed);
    ask(settings, command, &mut validation);
    let deciphered = tdes_decipher(pin_key, &sealed[..8], &mut clear).number == 0;
    let is_enciphered = tdes_encipher(pvk, &validation, &mut enciphered).number == 0;
    // without a block of 8 bytes the answer is 15 at the command's end
    let clear: &[u8] = if deciphered { &clear } else { &[] };
    let enciphered: &[u8] = if is_enciphered { &enciphered } else { &[] };
    let parities = [pin_key, pvk].map(odd_parity);
    answer(settings, parities[0], parities[1], command, clear, enciphered, out)
}

#[test]
fn the_lab_answers_as_a_key_box_would_have_it() {
    each_answer(|case, _| {
        let answer = case.answer();
        let mut out = case.out.clone().expect("lent output");
        assert_eq!(by_hand(&case, &mut out), answer.reply);
        assert_eq!(out, answer.out);
    });
}

/// Frame and fields are judged as the asking call does it, and point alike.
#[test]
fn a_pin_block_is_refused_as_asking_is() {
    let mut done = 0;
    each(|case, reply| {
        if case.call == Call::PinBlock && reply.number != 901 {
            let (asked, answer) = (ask(settings(&case), &case.runs[0], &mut [0; 8]), case.answer());
            assert_eq!(asked, reply);
            let before = case.out.as_ref().expect("lent output");
            assert_eq!(before[reply.written as usize..], answer.out[reply.written as usize..]);
            done += u64::from(reply.number == 0);
        }
    });
    assert!(done >= 4000, "{done}");
}

/// Bad parity in one byte alone: at each place of either key, of either length.
#[test]
fn parities_are_spoilt_in_each_byte() {
    let mut places = BTreeSet::new();
    each_answer(|case, reply| {
        let key = match reply.number {
            10 => 1,
            11 => 2,
            _ => return,
        };
        let run = &case.runs[key];
        let bad = Vec::from_iter((0..run.len()).filter(|&place| !odd_parity(&run[place..=place])));
        if let [place] = bad[..] {
            places.insert((key, run.len(), place));
        }
    });
    let all = |key, length| (0..length).map(move |place| (key, length, place));
    let wanted = [(1, 16), (1, 24), (2, 16), (2, 24)];
    assert_eq!(places, wanted.into_iter().flat_map(|(key, length)| all(key, length)).collect());
}

/// Whether a key has a length, and whether its parity is good.
type Judged = (bool, bool);

/// Every pair of a key that is good, of bad parity, of neither length or both, so that the order
/// of judging is seen; and the number that the pair gives.
#[test]
fn faults_of_keys_come_in_every_pair() {
    let mut pairs: BTreeMap<[Judged; 2], u64> = BTreeMap::new();
    each_answer(|case, reply| {
        if !is_of_keys(&case, reply) {
            return;
        }
        let [pin_key, pvk] = [1, 2].map(|run| {
            let key = &case.runs[run][..];
            (good_length(key), odd_parity(key))
        });
        let number = match (pin_key, pvk) {
            ((false, _), _) | (_, (false, _)) => Some(15),
            ((_, false), _) => Some(10),
            (_, (_, false)) => Some(11),
            _ => None,
        };
        match number {
            Some(number) => assert_eq!(reply.number, number),
            None => assert!([0, 1, 20, 24, 81, 86].contains(&reply.number), "{reply:?}"),
        }
        *pairs.entry([pin_key, pvk]).or_default() += 1;
    });
    assert_eq!(pairs.len(), 16);
    assert!(pairs.values().all(|&times| times >= 20), "{pairs:?}");
}

/// A command case that is done or has a verdict, walked over from outside.
fn each_walked(mut look: impl FnMut(bool, &Case, Walked)) {
    each_answer(|case, reply| {
        if reply.number > 1 {
            return;
        }
        let is_bk = case.code() == Some(*b"BK");
        let form = if is_bk { Form::Offset } else { Form::Verification };
        let walked = walk::walk(form, case.numbers[0] as usize, &case.runs[0]);
        look(is_bk, &case, walked.expect("a whole command"));
    });
}

/// Keys of two parts and of three, in every pair, beside every pair of letters in the command.
#[test]
fn lengths_go_by_no_letter() {
    let mut met = BTreeSet::new();
    each_walked(|_, case, command| {
        let letters = [command.pin_key[0], command.pvk[0]];
        met.insert((letters, case.runs[1].len(), case.runs[2].len()));
    });
    assert_eq!(met.len(), 3 * 3 * 2 * 2, "{met:?}");
}

/// Every format is read under either value of restricted, where the command permits it.
#[test]
fn formats_under_either_setting() {
    let mut met: BTreeMap<(bool, bool), BTreeSet<u32>> = BTreeMap::new();
    each_walked(|is_bk, case, command| {
        let is_restricted = case.numbers[1] != 0;
        met.entry((is_bk, is_restricted)).or_default().insert(command.format);
    });
    let all = BTreeSet::from([1, 3, 5, 34, 35, 47]);
    assert_eq!(met[&(true, true)], BTreeSet::from([1, 47]));
    for other in [(true, false), (false, true), (false, false)] {
        assert_eq!(met[&other], all, "{other:?}");
    }
}

/// A file of so many cases must hold each answer that is due; one that falls short is named.
#[test]
fn scarce_answers_are_a_fault() {
    let demand = lab::demand();
    let many = demand.many;
    assert_eq!(many, 200_000);
    assert!(scarce(Part::Lab, many - 1, &Tally::default()).is_empty());
    let numbers = 5 * 3 + 2 + 11 + 17 + 2 * 16;
    let points = 3 * (15 + 16);
    let lengths = 6 * 11 + 2 * 11;
    let wanted = numbers + points + lengths;
    assert_eq!(scarce(Part::Lab, many, &Tally::default()).len(), wanted);
    let mut tally = Tally::default();
    let of_da = Subject { call: Call::LabAnswer, code: Some(*b"DA") };
    for due in &demand.dues {
        let is_short = (due.subject, due.counted) == (of_da, Counted::Number(24));
        let times = due.times - u64::from(is_short);
        (0..times).for_each(|_| tally.count(due.subject, due.counted));
    }
    let lack = "lab_answer DA answers 24 299 times, not 300";
    assert_eq!(scarce(Part::Lab, many, &tally), [lack]);
}
