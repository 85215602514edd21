//! Request §4 over the cases of the makers: rules that hold wherever a reply points.

mod common;

use common::walk::{self, Form, Seen};
use reference::cases::case::{Call, Case};
use reference::cases::dice::Dice;
use reference::cases::pointed::Pointed;
use reference::cases::{blocks, commands, offsets, soak, verifications};
use reference::Reply;
use std::collections::BTreeMap;

const COUNT: u64 = 150_000;

/// The numbers that are a field's.
const OF_FIELDS: [u32; 7] = [3, 15, 23, 25, 26, 29, 69];

fn bk(mut look: impl FnMut(Seen)) {
    let mut dice = Dice::new(21);
    (1..COUNT).for_each(|index| {
        look(walk::seen(Form::Offset, commands::case(&mut dice, index)));
    });
}

fn da_and_ea(mut look: impl FnMut(Seen)) {
    let mut dice = Dice::new(22);
    (0..COUNT).for_each(|index| {
        look(walk::seen(Form::Verification, verifications::case(&mut dice, index)));
    });
}

fn all(mut look: impl FnMut(Seen)) {
    bk(&mut look);
    da_and_ea(&mut look);
}

/// A place in the command or its length, a field of the table; nowhere, if no field failed.
#[test]
fn places_and_fields_have_their_range() {
    all(|case| {
        let (length, place) = (case.runs[0].len() as u32, case.place);
        let behind_code = case.numbers[0].saturating_add(2);
        if !OF_FIELDS.contains(&case.number) {
            assert_eq!((place, case.field), (0, 0));
        } else if case.field == 0 {
            assert_eq!(case.number, 15);
            assert!(place < length || case.call == Call::Answer);
            assert!(u64::from(place) >= behind_code && place <= length);
        } else {
            assert!(case.field <= 12 && place <= length && u64::from(place) >= behind_code);
        }
    });
}

/// Which field a number is.
#[test]
fn numbers_and_fields_belong_together() {
    let mut met: BTreeMap<(bool, u32), Vec<u32>> = BTreeMap::new();
    all(|case| {
        if OF_FIELDS.contains(&case.number) {
            let fields = met.entry((case.code() == Some(b"BK"), case.number)).or_default();
            if !fields.contains(&case.field) {
                fields.push(case.field);
            }
        }
    });
    met.values_mut().for_each(|fields| fields.sort());
    let fields = |of_bk, number| met.get(&(of_bk, number)).cloned().unwrap_or_default();
    for of_bk in [true, false] {
        let [pin_key, pvk] = if of_bk { [2, 3] } else { [1, 2] };
        assert_eq!(fields(of_bk, 3), if of_bk { vec![10] } else { vec![] });
        assert_eq!(fields(of_bk, 23), [5]);
        assert_eq!(fields(of_bk, 25), [8]);
        assert_eq!(fields(of_bk, 26), [pin_key, pvk]);
        assert_eq!(fields(of_bk, 29), [pin_key, pvk]);
        assert_eq!(fields(of_bk, 69), [5]);
        assert_eq!(fields(of_bk, 15), Vec::from_iter(0..=12));
    }
}

/// Whether a command must have the field.
fn is_mandatory(case: &Seen) -> bool {
    case.field <= if case.code() == Some(b"BK") { 9 } else { 10 }
}

/// All that stands before a field that failed is right: cut there, the command misses just this
/// field, or is whole where the field is optional or left over. Only ids may disagree then, and the
/// PVK or the LMK field before the place holds the last of them.
#[test]
fn what_stands_before_the_place_is_right() {
    let mut cut_commands = 0;
    all(|case| {
        let pvk = if case.code() == Some(b"BK") { 3 } else { 2 };
        let Seen { number, place, field, .. } = case;
        if !OF_FIELDS.contains(&number) {
            return;
        }
        let cut = case.asked(&case.runs[0][..place as usize]);
        if field > 0 && is_mandatory(&case) {
            assert_eq!(cut, Reply { number: 15, written: 0, place, field });
        } else {
            let last_id = [pvk, 11].contains(&cut.field) && cut.place < place;
            let ids_disagree = cut.number == 15 && last_id;
            assert!(cut.number == 0 || ids_disagree, "{cut:?}");
        }
        cut_commands += 1;
    });
    assert!(cut_commands > 50_000);
}

/// Of a field that is refused with one of these numbers, so many characters are judged at most.
fn judged_characters(number: u32) -> Option<usize> {
    match number {
        23 | 69 => Some(2),
        25 => Some(16),
        26 => Some(6),
        _ => None,
    }
}

/// What follows the characters that a field is refused for does not matter.
#[test]
fn what_follows_a_field_does_not_matter() {
    let mut dice = Dice::new(23);
    all(|case| {
        let Seen { number, place, field, .. } = case;
        let Some(characters) = judged_characters(number) else { return };
        let end = (place as usize + characters).min(case.runs[0].len());
        let command = [&case.runs[0][..end], &dice.bytes(20)].concat();
        let reply = case.asked(&command);
        assert_eq!(reply, Reply { number, written: 0, place, field });
    });
}

/// What the ends of commands are pointed at for, by kind.
#[derive(Debug, Default)]
struct Ends {
    leftovers_behind_the_last_field: u32,
    leftovers_behind_a_full_trailer: u32,
    leftovers_beside_disagreeing_ids: u32,
    bad_characters_in_a_trailer: u32,
    bad_characters_in_a_trailer_that_is_too_long: u32,
}

/// Whether the ids of a walked command disagree.
fn ids_disagree(case: &Seen) -> bool {
    let Some(command) = &case.walked else { return false };
    let of_key = |key: &Vec<u8>| key.get(15..17).filter(|_| key[0] == b'S').map(<[u8]>::to_vec);
    let ids = [of_key(&command.pin_key), of_key(&command.pvk), command.lmk.clone()];
    let mut present = ids.iter().flatten();
    let first = present.next();
    present.any(|id| Some(id) != first)
}

impl Ends {
    /// Looks only at those that the walk came to the end of.
    fn look(&mut self, case: &Seen) {
        let Some(command) = &case.walked else { return };
        let (length, place) = (case.runs[0].len(), case.place as usize);
        let trailer = command.trailer.as_ref().map(Vec::len);
        let is_left_over = case.field == 0 && place < length;
        if case.number == 15 && is_left_over {
            self.leftovers_behind_the_last_field += u32::from(trailer.is_none());
            self.leftovers_beside_disagreeing_ids += u32::from(ids_disagree(case));
            if let Some(characters) = trailer {
                assert!(characters > 32 && place == length - characters + 32);
                self.leftovers_behind_a_full_trailer += 1;
            } else {
                assert_eq!(place, length - command.rest.len());
            }
        }
        if case.field == 12 {
            let characters = trailer.expect("a trailer");
            assert_eq!(place, length - characters - 1);
            self.bad_characters_in_a_trailer += 1;
            self.bad_characters_in_a_trailer_that_is_too_long += u32::from(characters > 32);
        }
    }

    fn assert_met(&self, times: u32) {
        let met = [
            self.leftovers_behind_the_last_field,
            self.leftovers_behind_a_full_trailer,
            self.leftovers_beside_disagreeing_ids,
            self.bad_characters_in_a_trailer,
            self.bad_characters_in_a_trailer_that_is_too_long,
        ];
        assert!(met.iter().all(|&met| met >= times), "{self:?}, not {times}");
    }
}

#[test]
fn the_ends_of_commands() {
    let [mut of_bk, mut of_others] = [(); 2].map(|()| Ends::default());
    bk(|case| of_bk.look(&case));
    da_and_ea(|case| of_others.look(&case));
    of_bk.assert_met(100);
    of_others.assert_met(100);
}

/// The look that tells disagreeing ids from other faults of their field agrees with the walk.
#[test]
fn disagreeing_ids_are_told_apart() {
    let mut met: BTreeMap<Pointed, u32> = BTreeMap::new();
    all(|case| {
        let is_pointed = case.number == 15 && case.field > 0;
        let Seen { call, ref numbers, ref runs, number, place, field, .. } = case;
        let looked = Case { call, numbers: numbers.clone(), runs: runs.clone(), out: None };
        let reply = Reply { number, written: 0, place, field };
        let pointed = Pointed::of(&looked, reply).map(|(_, pointed)| pointed);
        if let Some(Pointed::Ids(_)) = pointed {
            assert!(is_pointed && ids_disagree(&case));
            *met.entry(Pointed::Ids(field)).or_default() += 1;
        } else if is_pointed {
            // cut behind the field, the command is still refused for it
            let end = (place as usize + 600).min(runs[0].len());
            let reply = case.asked(&runs[0][..end]);
            assert_eq!((reply.number, reply.place, reply.field), (15, place, field));
        }
    });
    let fields = Vec::from_iter(met.keys().copied());
    assert_eq!(fields, [2, 3, 11].map(Pointed::Ids));
    assert!(met.values().all(|&times| times >= 200), "{met:?}");
}

/// All calls below the command level, done and refused, point nowhere.
#[test]
fn lower_calls_point_nowhere() {
    let mut dice = Dice::new(24);
    let assert_nowhere = |case: Case| {
        let Reply { place, field, .. } = case.answer().reply;
        assert_eq!((place, field), (0, 0), "{}", case.call.name());
    };
    for _ in 0..50_000 {
        assert_nowhere(blocks::case(&mut dice));
        assert_nowhere(offsets::case(&mut dice));
    }
    assert_nowhere(commands::usual());
    for index in 1..50_000 {
        let case = soak::case(&mut dice, index);
        if !case.call.takes_command() {
            assert_nowhere(case);
        }
    }
}
