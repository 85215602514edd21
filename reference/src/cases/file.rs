//! The case file itself; all integers are little-endian.
//!
//! It opens with the eight bytes `QGCASES2`. Each case is: the call's code (u8); n (u8) and n
//! numbers (u64); r (u8) and r runs (u32 length, bytes); 1 or 0 for lent output or none (u8) and,
//! where there is some, its length (u32) and its bytes before the call; the expected number,
//! written count, place and field (u32 each); where output was lent, its bytes after the call. The
//! file closes with a call code of 0 and the number of cases (u64).

use super::case::{Answer, Case};
use crate::reply::Reply;
use std::fs::File;
use std::io::{self, BufWriter, Write};

const OPENING: &[u8; 8] = b"QGCASES2";

pub struct CaseFile {
    file: BufWriter<File>,
    cases: u64,
}

impl CaseFile {
    pub fn create(path: &str) -> io::Result<CaseFile> {
        let mut file = BufWriter::with_capacity(1 << 20, File::create(path)?);
        file.write_all(OPENING)?;
        Ok(CaseFile { file, cases: 0 })
    }

    pub fn add(&mut self, case: &Case, answer: &Answer) -> io::Result<()> {
        self.file.write_all(&[case.call.code(), short_count(case.numbers.len())])?;
        for number in &case.numbers {
            self.file.write_all(&number.to_le_bytes())?;
        }
        self.file.write_all(&[short_count(case.runs.len())])?;
        for run in &case.runs {
            self.add_run(run)?;
        }
        self.file.write_all(&[u8::from(case.out.is_some())])?;
        if let Some(before) = &case.out {
            self.add_run(before)?;
        }
        let Reply { number, written, place, field } = answer.reply;
        for member in [number, written, place, field] {
            self.file.write_all(&member.to_le_bytes())?;
        }
        self.file.write_all(&answer.out)?;
        self.cases += 1;
        Ok(())
    }

    fn add_run(&mut self, run: &[u8]) -> io::Result<()> {
        let length = u32::try_from(run.len()).expect("a run of 32-bit length");
        self.file.write_all(&length.to_le_bytes())?;
        self.file.write_all(run)
    }

    pub fn finish(mut self) -> io::Result<()> {
        self.file.write_all(&[0])?;
        self.file.write_all(&self.cases.to_le_bytes())?;
        self.file.flush()
    }
}

fn short_count(count: usize) -> u8 {
    u8::try_from(count).expect("a count below 256")
}
