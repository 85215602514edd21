//! What the cases of the two command calls on BK hold: each kind of command that matters must be
//! among them.

mod common;

use common::format_03::Rubbish;
use common::walk::{self, assert_holds, every, set, walked_set, with_number, Form, Seen, Weak};
use reference::cases::case::Call;
use reference::cases::dice::Dice;
use reference::cases::pointed::Pointed;
use reference::cases::tally::{Counted, Subject, Tally};
use reference::cases::{command_bytes, commands, scarce, Part};
use std::collections::BTreeSet;
use std::sync::OnceLock;

const COUNT: u64 = 200_000;

/// Drawn once, for all tests of this file.
fn all_seen() -> &'static [Seen] {
    static CASES: OnceLock<Vec<Seen>> = OnceLock::new();
    CASES.get_or_init(|| {
        let mut dice = Dice::new(11);
        let case = |index| walk::seen(Form::Offset, commands::case(&mut dice, index));
        (1..COUNT).map(case).collect()
    })
}

#[test]
fn what_is_handed_over() {
    let cases = all_seen();
    let of_call = |call| move |case: &Seen| (case.call == call).then_some(case.lent);
    assert_holds(&set(cases, of_call(Call::Ask)), &[0, 7, 8, 9, 16]);
    assert_holds(&set(cases, of_call(Call::Answer)), &[0, 8, 64, 65, 66, 73]);
    for place in [0, 1] {
        let lengths = set(cases, |case| case.runs.get(1 + place).map(Vec::len));
        assert_holds(&lengths, &[0, 7, 8, 9]);
        let parities = set(cases, |case| case.numbers.get(3 + place).copied());
        assert_eq!(parities.len(), 256);
        let flags = set(cases, |case| Some(case.numbers[1 + place]));
        assert_eq!(flags.len(), 256);
    }
    let answered = cases.iter().filter(|case| case.call == Call::Answer);
    let kinds = set(answered, |case| Some([case.numbers[3] != 0, case.numbers[4] != 0]));
    assert_eq!(kinds.len(), 4);
}

#[test]
fn frames() {
    let cases = all_seen();
    let headers = |number| set(with_number(cases, number), |case| Some(case.numbers[0]));
    assert_eq!(Vec::from_iter(headers(0)), every(0..=16));
    assert_eq!(Vec::from_iter(headers(68)), every(0..=16));
    assert_holds(&headers(902), &every(1..=18));
    assert_holds(&headers(902), &[1 << 32, u64::MAX]);
    let lengths = |number| set(with_number(cases, number), |case| Some(case.runs[0].len()));
    assert_holds(&lengths(15), &[4095, 4096]);
    assert_holds(&lengths(902), &[0, 1, 2, 5, 4097, 4098]);
    let second =
        set(with_number(cases, 68), |case| case.runs[0].get(case.numbers[0] as usize + 1).copied());
    assert_holds(&second, &[0x00, b'J', b'K', b'L', b'k', 0xFF]);
}

#[test]
fn keys_that_are_whole() {
    let cases = all_seen();
    let whole = || with_number(cases, 0);
    let letters =
        walked_set(whole(), |command| (command.key_type[2], [command.pin_key[0], command.pvk[0]]));
    for key_type in *b"12" {
        for pair in [*b"UU", *b"UT", *b"TU", *b"TT"] {
            assert!(letters.contains(&(key_type, pair)));
        }
    }
    assert_eq!(letters.len(), 9);
    let blocks = || {
        let is_block = |case: &&Seen| case.walked.as_ref().is_some_and(|it| it.pvk[0] == b'S');
        whole().filter(is_block)
    };
    let pin_key_uses = walked_set(blocks(), |command| &command.pin_key[6..10]);
    let pvk_uses = walked_set(blocks(), |command| &command.pvk[6..10]);
    assert_eq!((pin_key_uses.len(), pvk_uses.len()), (9, 3));
    let lengths = walked_set(blocks(), |command| command.pin_key.len() - 1);
    assert_holds(&lengths, &[16, 17, 512]);
    let lengths = walked_set(blocks(), |command| command.pvk.len() - 1);
    assert_holds(&lengths, &[16, 17, 512]);
    assert_eq!(walked_set(blocks(), |command| &command.pvk[1..2]).len(), 2);
    assert_eq!(walked_set(blocks(), |command| &command.pvk[15..17]).len(), 10);
}

/// The first key field's characters behind its letter, whatever follows.
fn pin_key_from(case: &Seen, first: usize, count: usize) -> Option<&[u8]> {
    let key = (case.numbers[0] as usize).checked_add(5)?;
    case.runs[0].get(key + first..key + first + count)
}

#[test]
fn keys_that_are_refused() {
    let cases = all_seen();
    let letters = set(with_number(cases, 26), |case| pin_key_from(case, 0, 1));
    assert_holds(&letters, &[b"U", b"T", b"S", b"X", b"u", b"s"].map(|letter| &letter[..]));
    let lengths = set(with_number(cases, 26), |case| pin_key_from(case, 2, 4));
    assert_holds(&lengths, &[&b"0015"[..], b"0513", b"9999"]);
    let small = with_number(cases, 15).filter(|case| {
        let hex = pin_key_from(case, 1, 32).unwrap_or(b"");
        pin_key_from(case, 0, 1) == Some(b"U") && hex.iter().any(u8::is_ascii_lowercase)
    });
    assert!(small.count() >= 100);
    let refused = with_number(cases, 29);
    let uses = walked_set(refused, |command| [&command.pin_key[6..10], &command.pvk[6..10]]);
    for place in [0, 1] {
        let usages: BTreeSet<_> = uses.iter().map(|pair| &pair[place][..2]).collect();
        assert_holds(&usages, &[&b"P0"[..], b"71", b"72", b"V1", b"V2", b"p0", b"70"]);
        let algorithms: BTreeSet<_> = uses.iter().map(|pair| pair[place][2]).collect();
        assert_holds(&algorithms, b"TADt");
        let modes: BTreeSet<_> = uses.iter().map(|pair| pair[place][3]).collect();
        assert_holds(&modes, b"BCDEGNX");
    }
}

/// Which of the three places disagree, and that all of them are refused.
#[test]
fn lmk_ids() {
    let cases = all_seen();
    let mut disagreeing = BTreeSet::new();
    for case in with_number(cases, 15) {
        let Some(command) = &case.walked else { continue };
        if command.pin_key[0] == b'S' && command.pvk[0] == b'S' {
            let (pin_key, pvk) = (&command.pin_key[15..17], &command.pvk[15..17]);
            let own = command.lmk.as_deref();
            let with_own = own.map(|own| [own == pin_key, own == pvk]);
            disagreeing.insert((pin_key == pvk, with_own));
        }
    }
    assert_holds(&disagreeing, &[(false, None), (true, Some([false, false]))]);
    assert_holds(&disagreeing, &[(false, Some([true, false])), (false, Some([false, true]))]);
    assert_holds(&disagreeing, &[(false, Some([false, false]))]);
}

#[test]
fn formats() {
    let cases = all_seen();
    let met = |number| {
        set(with_number(cases, number), |case| {
            let command = case.walked.as_ref()?;
            Some((case.numbers[1] != 0, case.numbers[2] != 0, command.format))
        })
    };
    for variable in [false, true] {
        for format in [1, 3, 5, 34, 35, 47] {
            assert_holds(&met(0), &[(false, variable, format)]);
            let number = if matches!(format, 1 | 47) { 0 } else { 69 };
            assert_holds(&met(number), &[(true, variable, format)]);
        }
        for restricted in [false, true] {
            assert_holds(&met(69), &[41, 42, 48].map(|format| (restricted, variable, format)));
            assert_holds(&met(23), &[0, 2, 33, 99].map(|format| (restricted, variable, format)));
        }
    }
}

/// Rubbish behind the first F, with and without a fault before that F.
#[test]
fn blocks_of_format_03() {
    Rubbish::in_commands(all_seen()).assert_met(100);
}

/// Check lengths on both sides of PIN lengths, with offsets of either kind.
#[test]
fn check_lengths() {
    let cases = all_seen();
    let met = |number, variable| {
        let met = with_number(cases, number).filter(|case| (case.numbers[2] != 0) == variable);
        set(met, |case| Some((case.pin()?.len() as u64, case.walked.as_ref()?.check)))
    };
    let (plain, too_long, variable) = (met(0, false), met(81, false), met(0, true));
    for pin in 4..=12 {
        for check in 4..=12 {
            assert!(variable.contains(&(pin, check)));
            assert_eq!(plain.contains(&(pin, check)), check <= pin);
            assert_eq!(too_long.contains(&(pin, check)), check > pin);
        }
    }
    assert!(met(81, true).is_empty());
}

#[test]
fn weak_lists() {
    let cases = all_seen();
    let met = |number| {
        let lists =
            with_number(cases, number).filter_map(|case| case.walked.as_ref()?.weak.as_ref());
        lists.map(|list| (list.count, list.length)).collect::<BTreeSet<_>>()
    };
    assert_holds(&met(0), &[(0, 0)]);
    for length in 4..=12 {
        assert_holds(&met(0), &[(1, length), (99, length)]);
        assert_holds(&met(86), &[(1, length), (99, length)]);
    }
}

/// Entries that are not the PIN and must not be taken for it.
#[test]
fn near_misses_of_weak_pins() {
    let mut kinds = [0; 6];
    for case in with_number(all_seen(), 0) {
        let Some(pin) = case.pin() else { continue };
        let Some(Weak { count: 1.., length, entries: list }) =
            case.walked.as_ref().and_then(|command| command.weak.as_ref())
        else {
            continue;
        };
        let length = *length as usize;
        let entries = || list.chunks(length);
        let (shorter, longer) = (length < pin.len(), length > pin.len());
        let all_but_last = &pin[..pin.len() - 1];
        let found = [
            shorter && entries().any(|entry| pin.starts_with(entry)),
            shorter && entries().any(|entry| pin.ends_with(entry)),
            longer && entries().any(|entry| entry.starts_with(&pin)),
            longer && entries().any(|entry| entry.ends_with(&pin)),
            length == pin.len() && entries().any(|entry| entry.starts_with(all_but_last)),
            length == pin.len() && list.windows(length).any(|place| place == pin),
        ];
        kinds.iter_mut().zip(found).for_each(|(kind, found)| *kind += u32::from(found));
    }
    assert!(kinds.iter().all(|&kind| kind >= 100), "{kinds:?}");
}

#[test]
fn the_ends_of_commands() {
    let cases = all_seen();
    let trailers = |number| {
        walked_set(with_number(cases, number), |command| command.trailer.as_ref().map(Vec::len))
    };
    assert_eq!(trailers(0).len(), 1 + 33);
    assert_holds(&trailers(15), &[Some(33), Some(34)]);
    let holding = |number, character: u8| {
        let trailers = with_number(cases, number).filter_map(|case| case.walked.as_ref());
        trailers.filter_map(|command| command.trailer.as_ref()).any(|it| it.contains(&character))
    };
    assert!(holding(0, b';') && holding(0, b'%') && holding(15, 0x19) && !holding(0, 0x19));
    let forms = walked_set(with_number(cases, 0), |command| command.first_of_validation);
    assert_holds(&forms, b"PN0F");
}

/// A command of a hundred bytes is changed in one of them, sooner or later in each.
#[test]
fn one_byte_changes() {
    let mut dice = Dice::new(5);
    let whole = dice.bytes(100);
    let mut places = BTreeSet::new();
    for _ in 0..5000 {
        let mut command = whole.clone();
        command_bytes::change_one(&mut dice, &mut command);
        let changed: Vec<usize> =
            (0..100).filter(|&place| command[place] != whole[place]).collect();
        assert_eq!(changed.len(), 1);
        places.insert(changed[0]);
    }
    assert_eq!(places.len(), 100);
}

/// Every cut leaves another command, shorter than it was or one character longer.
#[test]
fn cut_fields() {
    let mut dice = Dice::new(6);
    let mut lengths = BTreeSet::new();
    for _ in 0..5000 {
        let mut command = (0..20).collect();
        command_bytes::cut_at_a_field(&mut dice, &[4, 6, 6, 9, 20], &mut command);
        lengths.insert(command.len());
    }
    assert_eq!(Vec::from_iter(lengths), every(0..=21));
}

#[test]
fn both_calls_judge_alike() {
    for case in all_seen().iter().filter(|case| case.number != 901 && case.call == Call::Answer) {
        case.assert_asking_agrees(&[0, 10, 11, 15, 20, 24, 81, 86]);
    }
}

/// A file of many cases must hold each answer often; a smaller one need not.
#[test]
fn scarce_answers_are_a_fault() {
    let demand = commands::demand();
    let many = demand.many;
    assert_eq!(many, 500_000);
    // the numbers of either call, and what it can point at
    let due = 11 + 17 + (12 + 2 + 1) + (12 + 2 + 2);
    assert_eq!(scarce(Part::Commands, many, &Tally::default()).len(), due);
    assert!(scarce(Part::Commands, many - 1, &Tally::default()).is_empty());
    let of_bk = |call, pointed| (Subject { call, code: Some(*b"BK") }, Counted::Pointed(pointed));
    let scarce_ones = [
        (Call::Answer.into(), Counted::Number(86)),
        of_bk(Call::Ask, Pointed::Ids(3)),
        of_bk(Call::Ask, Pointed::Ids(11)),
        of_bk(Call::Answer, Pointed::Field(12)),
        of_bk(Call::Answer, Pointed::Slices),
    ];
    let mut tally = Tally::default();
    for due in &demand.dues {
        let is_number = matches!(due.counted, Counted::Number(_));
        assert_eq!(due.times, if is_number { 500 } else { 200 });
        let missing = u64::from(scarce_ones.contains(&(due.subject, due.counted)));
        (missing..due.times).for_each(|_| tally.count(due.subject, due.counted));
    }
    let lines = scarce(Part::Commands, many, &tally);
    let wanted = [
        "answer answers 86 499 times, not 500",
        "ask BK points at ids, field 3 199 times, not 200",
        "ask BK points at ids, field 11 199 times, not 200",
        "answer BK points at field 12 199 times, not 200",
        "answer BK points at slices 199 times, not 200",
    ];
    assert_eq!(lines, wanted);
    scarce_ones.into_iter().for_each(|(subject, counted)| tally.count(subject, counted));
    assert!(scarce(Part::Commands, many, &tally).is_empty());
}
