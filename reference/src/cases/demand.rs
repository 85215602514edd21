//! What a file of many cases must hold.

use super::case::Call;
use super::ciphers::LENGTHS;
use super::key_lengths::{Key, KeyLength};
use super::pointed::Pointed;
use super::tally::{Counted, Subject, Tally};
use crate::command::{Command, CODE};

/// An answer, and how often a file must hold it at least.
pub struct Due {
    pub subject: Subject,
    pub counted: Counted,
    pub times: u64,
}

/// A file of so many cases or more must hold each answer that is due.
pub struct Demand {
    pub many: u64,
    pub dues: Vec<Due>,
}

/// Each number that the calls can answer, equally often.
pub fn of_calls(calls: &[Call], times: u64) -> Vec<Due> {
    dues(calls, None, times, |call| numbers(call.answers()))
}

/// Each number that the calls can answer to one command, equally often; counted apart from those
/// of other commands where the code is given.
pub fn of_command(
    calls: &[Call],
    command: &Command,
    code: Option<[u8; CODE]>,
    times: u64,
) -> Vec<Due> {
    dues(calls, code, times, |call| numbers(&call.answers_to(command)))
}

/// All that the calls' replies to one command can point at, equally often; always counted apart
/// from other commands, whose fields are others.
pub fn of_points(calls: &[Call], command: &Command, times: u64) -> Vec<Due> {
    let pointed = |call| Pointed::all(call, command).into_iter().map(Counted::Pointed).collect();
    dues(calls, Some(command.code), times, pointed)
}

/// Keys of every length that is counted, equally often.
pub fn of_key_lengths(calls: &[Call], keys: &[Key], times: u64) -> Vec<Due> {
    let of_key = |&key| LENGTHS.map(|bytes| Counted::KeyLength(KeyLength { key, bytes }));
    dues(calls, None, times, |_| keys.iter().flat_map(of_key).collect())
}

fn numbers(answers: &[u32]) -> Vec<Counted> {
    answers.iter().copied().map(Counted::Number).collect()
}

fn dues(
    calls: &[Call],
    code: Option<[u8; CODE]>,
    times: u64,
    of_call: impl Fn(Call) -> Vec<Counted>,
) -> Vec<Due> {
    let dues = |&call: &Call| {
        let subject = Subject { call, code };
        of_call(call).into_iter().map(move |counted| Due { subject, counted, times })
    };
    calls.iter().flat_map(dues).collect()
}

impl Due {
    /// What the tally lacks, in a line.
    fn lack(&self, tally: &Tally) -> Option<String> {
        let Due { subject, counted, times } = self;
        let met = tally.met(*subject, *counted);
        (met < *times).then(|| format!("{subject} {counted} {met} times, not {times}"))
    }
}

impl Demand {
    /// What the tally of a file of `count` cases lacks, a line for each answer.
    pub fn scarce(&self, count: u64, tally: &Tally) -> Vec<String> {
        if count < self.many {
            return vec![];
        }
        self.dues.iter().filter_map(|due| due.lack(tally)).collect()
    }
}
