//! What the cases of the two command calls on DA and EA hold: each kind of command that matters
//! must be among them.

mod common;

use common::format_03::Rubbish;
use common::walk::{self, assert_holds, every, set, walked_set, with_number, Form, Seen, Walked};
use reference::cases::case::{Call, Case};
use reference::cases::dice::Dice;
use reference::cases::pointed::Pointed;
use reference::cases::tally::{Counted, Subject, Tally};
use reference::cases::{scarce, verifications, Part};
use std::collections::BTreeSet;
use std::sync::OnceLock;

const COUNT: u64 = 200_000;
const CODES: [&[u8; 2]; 2] = [b"DA", b"EA"];

/// Drawn once, for all tests of this file.
fn all_seen() -> &'static [Seen] {
    static CASES: OnceLock<Vec<Seen>> = OnceLock::new();
    CASES.get_or_init(|| {
        let mut dice = Dice::new(12);
        let case = |index| walk::seen(Form::Verification, verifications::case(&mut dice, index));
        (0..COUNT).map(case).collect()
    })
}

/// The cases that carry a code and meet a number.
fn met(code: &'static [u8; 2], number: u32) -> impl Iterator<Item = &'static Seen> {
    with_number(all_seen(), number).filter(move |case| case.code() == Some(code))
}

fn is_variable(case: &Seen) -> bool {
    case.numbers[2] != 0
}

#[test]
fn what_is_handed_over() {
    let cases = all_seen();
    let of_call = |call| move |case: &Seen| (case.call == call).then_some(case.lent);
    assert_holds(&set(cases, of_call(Call::Ask)), &[0, 7, 8, 9, 16]);
    assert_holds(&set(cases, of_call(Call::Answer)), &[0, 8, 53, 64, 65, 66, 73]);
    for place in [0, 1] {
        let lengths = set(cases, |case| case.runs.get(1 + place).map(Vec::len));
        assert_holds(&lengths, &[0, 7, 8, 9]);
        let parities = set(cases, |case| case.numbers.get(3 + place).copied());
        assert_eq!(parities.len(), 256);
        let flags = set(cases, |case| Some(case.numbers[1 + place]));
        assert_eq!(flags.len(), 256);
    }
    for code in CODES {
        let headers = |number| set(met(code, number), |case| Some(case.numbers[0]));
        assert_eq!(Vec::from_iter(headers(0)), every(0..=16));
        assert_eq!(Vec::from_iter(headers(1)), every(0..=16));
        assert_holds(&headers(902), &[17]);
    }
}

/// Codes that are not built, and fields under the code of another command.
#[test]
fn codes() {
    let cases = all_seen();
    let unknown = set(with_number(cases, 68), Seen::code);
    assert_holds(&unknown, &[&b"DB"[..], b"EB", b"DC", b"EC", b"da", b"AD", b"D\xFF", b"E\xFF"]);
    assert!(CODES.iter().all(|code| !unknown.contains(&code[..])) && !unknown.contains(&b"BK"[..]));
    let under_bk = cases.iter().filter(|case| case.code() == Some(b"BK"));
    assert!(under_bk.filter(|case| case.walked.is_some() && case.number == 15).count() >= 100);
    for code in CODES {
        let of_bk = met(code, 26).filter(|case| {
            let body = case.runs[0].get(case.numbers[0] as usize + 2..);
            body.is_some_and(|body| body.starts_with(b"001") || body.starts_with(b"FFF"))
        });
        assert!(of_bk.count() >= 500);
    }
}

#[test]
fn keys_that_are_whole() {
    for (code, own) in [(CODES[0], b"71"), (CODES[1], b"72")] {
        for number in [0, 1] {
            let whole = || met(code, number);
            let letters = walked_set(whole(), |command| [command.pin_key[0], command.pvk[0]]);
            assert_eq!(letters.len(), 9);
            let uses = |key: fn(&Walked) -> &Vec<u8>| {
                let blocks = whole().filter_map(|case| case.walked.as_ref()).map(key);
                blocks.filter(|key| key[0] == b'S').map(|key| &key[6..10]).collect::<BTreeSet<_>>()
            };
            let (pin_key, pvk) = (uses(|it| &it.pin_key), uses(|it| &it.pvk));
            assert_eq!((pin_key.len(), pvk.len()), (6, 3));
            assert!(pin_key.iter().all(|it| it.starts_with(b"P0") || it.starts_with(own)));
            assert_holds(&pvk, &[&b"V1TC"[..], b"V1TV", b"V1TN"]);
        }
    }
}

#[test]
fn keys_that_are_refused() {
    for (code, other) in [(CODES[0], *b"72TB"), (CODES[1], *b"71TB")] {
        let letters = walked_set(met(code, 29), |command| [command.pin_key[0], command.pvk[0]]);
        assert_eq!(Vec::from_iter(letters), [*b"SS", *b"ST", *b"SU", *b"TS", *b"US"]);
        let pin_key = walked_set(met(code, 29), |command| &command.pin_key[6..10]);
        assert_holds(&pin_key, &[&other[..], b"V1TC"]);
        let pvk = walked_set(met(code, 29), |command| &command.pvk[6..10]);
        assert_holds(&pvk, &[&b"V1TG"[..], b"P0TN"]);
        let first = |case: &'static Seen| case.runs[0].get(case.numbers[0] as usize + 2).copied();
        assert_holds(&set(met(code, 26), first), b"SX0Fu");
    }
}

/// Which of the three places have an id, and that disagreeing ones are refused.
#[test]
fn lmk_ids() {
    let ids = |command: &Walked| {
        let of_key = |key: &Vec<u8>| {
            let id = key.get(15..17).filter(|_| key[0] == b'S');
            id.map(<[u8]>::to_vec)
        };
        [of_key(&command.pin_key), of_key(&command.pvk), command.lmk.clone()]
    };
    let presence = |ids: &[Option<Vec<u8>>; 3]| ids.each_ref().map(Option::is_some);
    for code in CODES {
        let agreeing = walked_set(met(code, 0), |command| presence(&ids(command)));
        assert_eq!(agreeing.len(), 8);
        let mut disagreeing = BTreeSet::new();
        for ids in walked_set(met(code, 15), ids) {
            let different: BTreeSet<_> = ids.iter().flatten().collect();
            if different.len() > 1 {
                disagreeing.insert(presence(&ids));
            }
        }
        assert_holds(&disagreeing, &[[true, true, false], [true, true, true]]);
        assert_holds(&disagreeing, &[[true, false, true], [false, true, true]]);
    }
}

#[test]
fn maximum_lengths() {
    for code in CODES {
        let maxima = |number| walked_set(met(code, number), |command| &command.maximum[..]);
        assert_eq!(Vec::from_iter(maxima(0)), [b"12"]);
        assert_holds(&maxima(15), &[&b"11"[..], b"13", b"00", b"21", b"99", b"1B"]);
    }
}

/// Every format under every setting, also where BK would refuse it.
#[test]
fn formats() {
    for code in CODES {
        let met = |number| {
            set(met(code, number), |case| {
                let command = case.walked.as_ref()?;
                Some((case.numbers[1] != 0, is_variable(case), command.format))
            })
        };
        for setting in 0..4 {
            let (restricted, variable) = (setting & 1 != 0, setting & 2 != 0);
            for number in [0, 1] {
                let built = [1, 3, 5, 34, 35, 47].map(|format| (restricted, variable, format));
                assert_holds(&met(number), &built);
            }
            assert_holds(&met(69), &[41, 42, 48].map(|format| (restricted, variable, format)));
            assert_holds(&met(23), &[0, 2, 33].map(|format| (restricted, variable, format)));
        }
        let not_built = met(69).into_iter().all(|(_, _, format)| [41, 42, 48].contains(&format));
        assert!(not_built);
    }
}

/// Rubbish behind the first F, with and without a fault before that F; for either code.
#[test]
fn blocks_of_format_03() {
    Rubbish::in_commands(all_seen()).assert_met(100);
    for code in CODES {
        let of_code = all_seen().iter().filter(|case| case.code() == Some(code));
        Rubbish::in_commands(of_code).assert_met(50);
    }
}

fn count_of_digits(offset: &[u8]) -> u64 {
    offset.iter().take_while(|character| character.is_ascii_digit()).count() as u64
}

/// PIN length, check length and count of the offset's digits, of the answering cases with a
/// number.
fn lengths(number: u32, variable: bool) -> BTreeSet<[u64; 3]> {
    let cases = with_number(all_seen(), number).filter(|case| is_variable(case) == variable);
    set(cases, |case| {
        let command = case.walked.as_ref()?;
        Some([case.pin()?.len() as u64, command.check, count_of_digits(&command.offset)])
    })
}

/// A verdict is reached for every check length that the PIN has, and for no other.
#[test]
fn lengths_that_fit() {
    for number in [0, 1] {
        let (fixed, variable) = (lengths(number, false), lengths(number, true));
        for [pin, check] in (4..=12).flat_map(|pin| (4..=12).map(move |check| [pin, check])) {
            assert_eq!(fixed.contains(&[pin, check, check]), check <= pin);
            assert!(variable.contains(&[pin, check, pin]));
        }
        assert!(fixed.iter().all(|[_, check, digits]| digits == check));
        assert!(variable.iter().all(|[pin, _, digits]| digits == pin));
    }
}

/// "m over n or an offset without exactly m digits is 81": each alone, and both.
#[test]
fn lengths_that_do_not_fit() {
    let fixed = lengths(81, false);
    for pin in 4..=11 {
        assert_holds(&fixed, &[[pin, pin + 1, pin + 1], [pin, 12, 12]]);
    }
    let kind = |&[pin, check, digits]: &[u64; 3]| (check > pin, digits.cmp(&check));
    assert_eq!(fixed.iter().map(kind).collect::<BTreeSet<_>>().len(), 5);
    let variable = lengths(81, true);
    let kind = |&[pin, check, digits]: &[u64; 3]| (check.cmp(&pin), digits.cmp(&pin));
    assert_eq!(variable.iter().map(kind).collect::<BTreeSet<_>>().len(), 6);
}

/// The offset that the lower call makes of the same case, if it makes one.
fn right_offset(case: &Seen, variable: bool) -> Option<[u8; 12]> {
    let command = case.walked.as_ref()?;
    let settings = reference::Settings { variable, ..reference::usual() };
    let (check, account, table) = (command.check as u32, &command.account, &command.table);
    let [block, enciphered] = [case.runs.get(1)?, case.runs.get(2)?];
    let mut offset = [0; 12];
    let format = command.format;
    let reply =
        reference::offset(settings, format, check, block, account, table, enciphered, &mut offset);
    (reply.number == 0).then_some(offset)
}

/// 00 is met with the offset that is made and with no other; 01 with near misses of it.
#[test]
fn offsets_right_and_near() {
    for code in CODES {
        for case in met(code, 0).filter(|case| case.call == Call::Answer) {
            let presented = &case.walked.as_ref().expect("a whole command").offset;
            let right = right_offset(case, is_variable(case)).expect("an offset");
            assert_eq!(presented[..], right);
        }
        let [mut one_digit, mut from_the_left] = [0, 0];
        for case in met(code, 1) {
            let presented = &case.walked.as_ref().expect("a whole command").offset;
            let Some(right) = right_offset(case, is_variable(case)) else { continue };
            let Some(longest) = right_offset(case, true) else { continue };
            let other = right.iter().zip(presented).filter(|(one, other)| one != other).count();
            assert!(other > 0);
            one_digit += u32::from(other == 1);
            let digits = count_of_digits(presented) as usize;
            from_the_left += u32::from(presented[..digits] == longest[..digits]);
        }
        assert!(one_digit >= 1000 && from_the_left >= 500, "{one_digit} {from_the_left}");
    }
}

#[test]
fn malformed_offsets() {
    for code in CODES {
        let offsets = walked_set(met(code, 15), |command| &command.offset[..]);
        let any = |test: &dyn Fn(&[u8]) -> bool| offsets.iter().filter(|it| test(it)).count();
        assert!(any(&|offset| count_of_digits(offset) < 4) >= 50);
        assert!(any(&|offset| offset.contains(&b'f')) >= 50);
        let digit_behind_f = |pair: &[u8]| pair[0] == b'F' && pair[1].is_ascii_digit();
        assert!(any(&|offset| offset.windows(2).any(digit_behind_f)) >= 50);
        assert!(any(&|offset| offset.contains(&b'A')) >= 20);
    }
}

/// Trailers, with 01 too, and what is left over: a weak list is.
#[test]
fn the_ends_of_commands() {
    for code in CODES {
        for number in [0, 1] {
            let trailers = walked_set(met(code, number), |it| it.trailer.as_ref().map(Vec::len));
            assert_eq!(trailers.len(), 1 + 33);
        }
        let lengths = walked_set(met(code, 15), |it| it.trailer.as_ref().map(Vec::len));
        assert_holds(&lengths, &[Some(33), Some(34)]);
        let rests = walked_set(met(code, 15), |command| &command.rest[..]);
        assert_holds(&rests, &[&b";00"[..], b";01041234", b"%00", b"0"]);
        let lists = rests.iter().filter(|rest| rest.starts_with(b";01"));
        assert!(lists.count() >= 50);
    }
}

/// Never 03 or 86: there is no weak list.
#[test]
fn numbers() {
    for (call, of_call) in [
        (Call::Ask, &[0, 15, 23, 25, 26, 29, 68, 69, 901, 902][..]),
        (Call::Answer, &[0, 1, 10, 11, 15, 20, 23, 24, 25, 26, 29, 68, 69, 81, 901, 902]),
    ] {
        let met = set(all_seen(), |case| (case.call == call).then_some(case.number));
        assert_eq!(Vec::from_iter(met), of_call);
    }
}

#[test]
fn both_calls_judge_alike() {
    for case in all_seen().iter().filter(|case| case.number != 901 && case.call == Call::Answer) {
        case.assert_asking_agrees(&[0, 1, 10, 11, 15, 20, 24, 81]);
    }
}

/// A case counts for the code that it carries, else for the one that was meant: DA in every even
/// place of a file, EA in every odd one.
#[test]
fn whose_answers_are_counted() {
    let case = |header, command: &[u8]| Case {
        call: Call::Ask,
        numbers: vec![header, 0, 0],
        runs: vec![command.to_vec()],
        out: None,
    };
    let code = |index, header, command: &[u8]| {
        verifications::subject(index, &case(header, command)).code.expect("a code")
    };
    for (index, meant) in [(0, *b"DA"), (1, *b"EA"), (2, *b"DA")] {
        assert_eq!(code(index, 4, b"HDR1DA"), *b"DA");
        assert_eq!(code(index, 4, b"HDR1EA"), *b"EA");
        assert_eq!(code(index, 4, b"HDR1EB"), meant);
        assert_eq!(code(index, 4, b"HDR1D"), meant);
        assert_eq!(code(index, u64::MAX, b"HDR1DA"), meant);
    }
}

/// A file of many cases must hold each answer to each code often, and verdicts most often.
#[test]
fn scarce_answers_are_a_fault() {
    let demand = verifications::demand();
    let many = demand.many;
    assert_eq!(many, 300_000);
    assert!(scarce(Part::Verifications, many - 1, &Tally::default()).is_empty());
    // the numbers of either call to either command, and what it can point at
    let due = 2 * (10 + 16 + (12 + 2 + 1) + (12 + 2 + 2));
    assert_eq!(scarce(Part::Verifications, many, &Tally::default()).len(), due);
    let answered = |code| Subject { call: Call::Answer, code: Some(code) };
    let scarce_ones = [
        (answered(*b"DA"), Counted::Pointed(Pointed::Ids(2))),
        (answered(*b"EA"), Counted::Number(1)),
        (answered(*b"EA"), Counted::Pointed(Pointed::Leftovers)),
    ];
    let mut tally = Tally::default();
    for due in &demand.dues {
        let times = match due.counted {
            Counted::Number(0 | 1) if due.subject.call == Call::Answer => 5000,
            Counted::Number(_) => 500,
            Counted::Pointed(_) => 200,
            Counted::KeyLength(_) => panic!("neither call is handed a key"),
        };
        assert_eq!(due.times, times);
        let missing = u64::from(scarce_ones.contains(&(due.subject, due.counted)));
        (missing..due.times).for_each(|_| tally.count(due.subject, due.counted));
    }
    let lines = scarce(Part::Verifications, many, &tally);
    let wanted = [
        "answer DA points at ids, field 2 199 times, not 200",
        "answer EA answers 01 4999 times, not 5000",
        "answer EA points at leftovers 199 times, not 200",
    ];
    assert_eq!(lines, wanted);
    scarce_ones.into_iter().for_each(|(subject, counted)| tally.count(subject, counted));
    assert!(scarce(Part::Verifications, many, &tally).is_empty());
}
