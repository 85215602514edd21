//! The case files: their shape, their repeatability, and what they hold.

use reference::cases::dice::Dice;
use reference::cases::{commands, make, tally::Tally, Part};
use std::fs;

const COUNT: u64 = 40_000;

fn made(part: Part, name: &str, seed: u64) -> (Tally, Vec<u8>) {
    let path = std::env::temp_dir().join(format!("{}-{name}", std::process::id()));
    let path_text = path.to_str().expect("a plain path");
    let tally = make(part, path_text, seed, COUNT).expect("a case file");
    let content = fs::read(&path).expect("the case file");
    fs::remove_file(&path).expect("the case file gone");
    (tally, content)
}

fn assert_whole_file(part: Part, name: &str, successes: u64, numbers: &[u32]) {
    let (tally, content) = made(part, name, 7);
    assert_eq!(&content[..8], b"QGCASES2");
    let trailer = &content[content.len() - 9..];
    assert_eq!(trailer[0], 0);
    assert_eq!(trailer[1..], COUNT.to_le_bytes());
    assert_eq!(tally.total(), COUNT);
    assert!(tally.of_number(0) * 100 >= COUNT * successes, "too few successes:\n{tally}");
    for &number in numbers {
        assert!(tally.of_number(number) >= 50, "too few cases of {number}:\n{tally}");
    }
    let (_, again) = made(part, name, 7);
    assert_eq!(content, again);
    let (_, other) = made(part, name, 8);
    assert_ne!(content, other);
}

#[test]
fn block_cases() {
    assert_whole_file(Part::Blocks, "blocks", 40, &[15, 20, 23, 24, 69, 901]);
}

#[test]
fn offset_cases() {
    assert_whole_file(Part::Offsets, "offsets", 40, &[1, 15, 20, 23, 24, 25, 69, 81, 901]);
}

#[test]
fn command_cases() {
    let numbers = [3, 10, 11, 15, 20, 23, 24, 25, 26, 29, 68, 69, 81, 86, 901, 902];
    assert_whole_file(Part::Commands, "commands", 40, &numbers);
}

#[test]
fn verification_cases() {
    let numbers = [1, 10, 11, 15, 20, 23, 24, 25, 26, 29, 68, 69, 81, 901, 902];
    assert_whole_file(Part::Verifications, "verifications", 35, &numbers);
}

#[test]
fn lab_cases() {
    let numbers = [1, 3, 10, 11, 15, 20, 23, 24, 25, 26, 29, 68, 69, 81, 86, 901, 902];
    assert_whole_file(Part::Lab, "lab", 40, &numbers);
}

/// Most of these are refused, but not so many that what is made after the last refusal is rare.
#[test]
fn soak_cases() {
    assert_whole_file(Part::Soak, "soak", 20, &[1, 15, 20, 23, 24, 25, 69, 81, 901, 902]);
}

/// Takes bytes off the front of a file.
struct Reader<'a> {
    rest: &'a [u8],
}

impl<'a> Reader<'a> {
    fn take(&mut self, count: usize) -> &'a [u8] {
        let (taken, rest) = self.rest.split_at(count);
        self.rest = rest;
        taken
    }

    fn byte(&mut self) -> usize {
        usize::from(self.take(1)[0])
    }

    fn word(&mut self) -> u32 {
        u32::from_le_bytes(self.take(4).try_into().expect("four bytes"))
    }

    fn run(&mut self) -> &'a [u8] {
        let length = self.word() as usize;
        self.take(length)
    }

    /// Steps over what a call is given; how much output is lent, and the code.
    fn call(&mut self) -> (usize, usize) {
        let code = self.byte();
        for _ in 0..self.byte() {
            self.take(8);
        }
        for _ in 0..self.byte() {
            self.run();
        }
        let lent = if self.byte() == 1 { self.run().len() } else { 0 };
        (code, lent)
    }
}

/// Behind what a call is given stand number, `written`, place and field, then the lent buffer: in
/// every case, `usual` included.
#[test]
fn every_case_carries_its_whole_reply() {
    let (_, content) = made(Part::Commands, "replies", 7);
    let mut reader = Reader { rest: &content[8..] };
    let mut dice = Dice::new(7);
    for index in 0..COUNT {
        let case = commands::case(&mut dice, index);
        let answer = case.answer();
        let (code, lent) = reader.call();
        assert_eq!((code, lent), (usize::from(case.call.code()), answer.out.len()));
        let [number, written, place, field] = [(); 4].map(|()| reader.word());
        assert_eq!(reference::Reply { number, written, place, field }, answer.reply);
        assert_eq!(reader.take(lent), answer.out);
    }
    assert_eq!(reader.rest.len(), 9);
}
