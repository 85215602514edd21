//! Command cases looked at from outside, by a walk that knows nothing of the program's own.

use reference::cases::case::{Call, Case};
use reference::Reply;
use std::collections::BTreeSet;
use std::fmt::Debug;
use std::ops::RangeInclusive;

/// Whose fields a walk expects.
#[derive(Clone, Copy, PartialEq, Eq)]
pub enum Form {
    /// BK: key type and weak list.
    Offset,
    /// DA and EA: maximum PIN length and offset.
    Verification,
}

/// A command case, walked over as far as it looks like a command.
pub struct Seen {
    pub call: Call,
    pub numbers: Vec<u64>,
    pub runs: Vec<Vec<u8>>,
    pub lent: usize,
    pub number: u32,
    /// Where the reply points.
    pub place: u32,
    pub field: u32,
    pub walked: Option<Walked>,
}

/// Fields that a form lacks are empty.
pub struct Walked {
    pub key_type: Vec<u8>,
    pub pin_key: Vec<u8>,
    pub pvk: Vec<u8>,
    pub maximum: Vec<u8>,
    pub format: u32,
    pub check: u64,
    pub account: Vec<u8>,
    pub table: Vec<u8>,
    pub first_of_validation: u8,
    pub offset: Vec<u8>,
    pub weak: Option<Weak>,
    pub lmk: Option<Vec<u8>>,
    pub trailer: Option<Vec<u8>>,
    /// What stands behind all that, where there is no trailer.
    pub rest: Vec<u8>,
}

/// A list of none has no length.
pub struct Weak {
    pub count: u64,
    pub length: u64,
    pub entries: Vec<u8>,
}

pub fn seen(form: Form, case: Case) -> Seen {
    let Reply { number, place, field, .. } = case.answer().reply;
    let walked = walk(form, case.numbers[0] as usize, &case.runs[0]);
    let lent = case.out.as_ref().expect("both calls are lent output").len();
    let Case { call, numbers, runs, .. } = case;
    Seen { call, numbers, runs, lent, number, place, field, walked }
}

/// Takes characters off the front.
fn take<'a>(rest: &mut &'a [u8], count: usize) -> Option<&'a [u8]> {
    let (taken, left) = rest.split_at_checked(count)?;
    *rest = left;
    Some(taken)
}

fn number_of(characters: &[u8]) -> Option<u64> {
    std::str::from_utf8(characters).ok()?.parse().ok()
}

/// A key block that says it is shorter than 16 characters has no place for a use and an LMK id: it
/// does not look like one.
fn key(rest: &mut &[u8]) -> Option<Vec<u8>> {
    let length = match rest.first()? {
        b'U' => 33,
        b'T' => 49,
        b'S' => 1 + number_of(rest.get(2..6)?).filter(|&length| length >= 16)? as usize,
        _ => return None,
    };
    take(rest, length).map(<[u8]>::to_vec)
}

pub fn walk(form: Form, header: usize, command: &[u8]) -> Option<Walked> {
    let rest = &mut command.get(header.checked_add(2)?..)?;
    let [of_offset, of_verification] = [form == Form::Offset, form == Form::Verification];
    let key_type = take(rest, if of_offset { 3 } else { 0 })?.to_vec();
    let (pin_key, pvk) = (key(rest)?, key(rest)?);
    let maximum = take(rest, if of_verification { 2 } else { 0 })?.to_vec();
    take(rest, 16)?;
    let format = number_of(take(rest, 2)?)? as u32;
    let check = number_of(take(rest, 2)?)?;
    let account = take(rest, 12)?.to_vec();
    let table = take(rest, 16)?.to_vec();
    let first_of_validation = *rest.first()?;
    take(rest, if first_of_validation == b'P' { 17 } else { 12 })?;
    let offset = take(rest, if of_verification { 12 } else { 0 })?.to_vec();
    let has_list = of_offset && rest.starts_with(b";");
    let weak = if has_list { Some(weak_list(rest)?) } else { None };
    let lmk = if rest.starts_with(b"%") { Some(take(rest, 3)?[1..].to_vec()) } else { None };
    Some(Walked {
        key_type,
        pin_key,
        pvk,
        maximum,
        format,
        check,
        account,
        table,
        first_of_validation,
        offset,
        weak,
        lmk,
        trailer: rest.strip_prefix(b"\x19").map(<[u8]>::to_vec),
        rest: rest.to_vec(),
    })
}

fn weak_list(rest: &mut &[u8]) -> Option<Weak> {
    let count = number_of(&take(rest, 3)?[1..])?;
    if count == 0 {
        return Some(Weak { count, length: 0, entries: vec![] });
    }
    let length = number_of(take(rest, 2)?)?;
    let entries = take(rest, (count * length) as usize)?.to_vec();
    Some(Weak { count, length, entries })
}

impl Seen {
    /// The PIN in an answering case's clear block, as characters.
    pub fn pin(&self) -> Option<Vec<u8>> {
        let command = self.walked.as_ref()?;
        let mut pin = [0; 12];
        let block = self.runs.get(1)?;
        let reply = reference::read_block(command.format, block, &command.account, &mut pin);
        let digits = &pin[..reply.written as usize];
        (reply.number == 0).then(|| digits.iter().map(|digit| b'0' + digit).collect())
    }

    /// The command's two bytes behind the header, if it has so many.
    pub fn code(&self) -> Option<&[u8]> {
        let header = self.numbers[0] as usize;
        self.runs[0].get(header..header.checked_add(2)?)
    }

    /// What the asking call replies to a command under the case's settings.
    pub fn asked(&self, command: &[u8]) -> Reply {
        let [header, restricted, variable] = [0, 1, 2].map(|place| self.numbers[place]);
        let settings =
            reference::Settings::of_face(header as usize, restricted as u8, variable as u8);
        reference::ask(settings, command, &mut [0; 8])
    }

    /// The asking and the answering call judge frame and fields alike, and point at the same; only
    /// behind the fields the answering call goes on by itself, to one of these numbers.
    pub fn assert_asking_agrees(&self, of_answering: &[u32]) {
        let asked = self.asked(&self.runs[0]);
        if asked.number == 0 {
            assert!(of_answering.contains(&self.number), "{}", self.number);
        } else {
            let Seen { number, place, field, .. } = *self;
            assert_eq!(asked, Reply { number, written: 0, place, field });
        }
    }
}

/// The set of what a question finds in the cases.
pub fn set<'a, T: Ord>(
    cases: impl IntoIterator<Item = &'a Seen>,
    question: impl Fn(&'a Seen) -> Option<T>,
) -> BTreeSet<T> {
    cases.into_iter().filter_map(question).collect()
}

/// The same of a walked command.
pub fn walked_set<'a, T: Ord>(
    cases: impl IntoIterator<Item = &'a Seen>,
    question: impl Fn(&'a Walked) -> T,
) -> BTreeSet<T> {
    set(cases, |case| case.walked.as_ref().map(&question))
}

pub fn with_number(cases: &[Seen], number: u32) -> impl Iterator<Item = &Seen> {
    cases.iter().filter(move |case| case.number == number)
}

pub fn assert_holds<T: Ord + Copy + Debug>(set: &BTreeSet<T>, wanted: &[T]) {
    for value in wanted {
        assert!(set.contains(value), "{value:?} is not among the cases");
    }
}

pub fn every<T>(range: RangeInclusive<T>) -> Vec<T>
where
    RangeInclusive<T>: Iterator<Item = T>,
{
    range.collect()
}
