//! One case: a call of the C face with everything it is given, and its answer.

use crate::command::CODE;
use crate::point::Point;
use crate::reply::Reply;
use crate::settings::Settings;

pub use super::call::{Call, Parameter};

/// Numbers and runs stand in the order of the C face; a settings struct comes first, as header,
/// restricted and variable.
pub struct Case {
    pub call: Call,
    pub numbers: Vec<u64>,
    pub runs: Vec<Vec<u8>>,
    pub out: Option<Vec<u8>>,
}

/// The reply and the lent buffer after the call.
pub struct Answer {
    pub reply: Reply,
    pub out: Vec<u8>,
}

impl Case {
    /// Asks this program.
    pub fn answer(&self) -> Answer {
        let mut out = self.out.clone().unwrap_or_default();
        let reply = self.ask(&mut out);
        Answer { reply, out }
    }

    fn ask(&self, out: &mut [u8]) -> Reply {
        match self.call {
            Call::ReadBlock | Call::WriteBlock | Call::Translate => self.ask_blocks(out),
            Call::PvvInput | Call::Pvv | Call::PvvVerdict => self.ask_pvv(out),
            Call::Ask | Call::Answer | Call::Usual => self.ask_commands(out),
            Call::LabAnswer | Call::PinBlock => self.ask_lab_commands(out),
            Call::DesEncipher | Call::DesDecipher => self.ask_ciphers(out),
            Call::TdesEncipher | Call::TdesDecipher => self.ask_ciphers(out),
            Call::KeyCheck => crate::key_check(self.run(0), out),
            Call::OddParity => self.ask_parity(),
            _ => self.ask_offsets(out),
        }
    }

    fn ask_blocks(&self, out: &mut [u8]) -> Reply {
        let [first, second] = [self.run(0), self.run(1)];
        match self.call {
            Call::ReadBlock => crate::read_block(self.number(0), first, second, out),
            Call::WriteBlock => crate::write_block(self.number(0), first, second, self.run(2), out),
            _ => {
                let (from, to) = (self.number(3), self.number(4));
                crate::translate(self.settings(), from, to, first, second, self.run(2), out)
            }
        }
    }

    fn ask_offsets(&self, out: &mut [u8]) -> Reply {
        let [first, second] = [self.run(0), self.run(1)];
        match self.call {
            Call::ValidationBlock => crate::validation_block(first, second, out),
            Call::NaturalPin => crate::natural_pin(self.number(0), first, second, out),
            Call::OffsetOfDigits => {
                crate::offset_of_digits(self.settings(), self.number(3), first, second, out)
            }
            Call::Differences => {
                crate::differences(self.settings(), self.number(3), first, second, out)
            }
            _ => self.ask_offset_of_block(out),
        }
    }

    fn ask_offset_of_block(&self, out: &mut [u8]) -> Reply {
        let (settings, format, check) = (self.settings(), self.number(3), self.number(4));
        let [block, account, table, enciphered] = [0, 1, 2, 3].map(|index| self.run(index));
        if self.call == Call::Offset {
            return crate::offset(settings, format, check, block, account, table, enciphered, out);
        }
        let presented = self.run(4);
        crate::offset_verdict(settings, format, check, block, account, table, enciphered, presented)
    }

    fn ask_pvv(&self, out: &mut [u8]) -> Reply {
        if self.call == Call::Pvv {
            return crate::pvv(self.run(0), out);
        }
        let (format, index) = (self.number(0), self.number(1));
        let [block, account] = [self.run(0), self.run(1)];
        if self.call == Call::PvvInput {
            return crate::pvv_input(format, index, block, account, out);
        }
        crate::pvv_verdict(format, index, block, account, self.run(2), self.run(3))
    }

    fn ask_commands(&self, out: &mut [u8]) -> Reply {
        match self.call {
            Call::Ask => crate::ask(self.settings(), self.run(0), out),
            Call::Answer => {
                let [command, pin_block, enciphered] = [0, 1, 2].map(|index| self.run(index));
                let [pin_key_good, pvk_good] = [3, 4].map(|index| self.flag(index) != 0);
                let settings = self.settings();
                crate::answer(settings, pin_key_good, pvk_good, command, pin_block, enciphered, out)
            }
            _ => self.ask_usual(),
        }
    }

    fn ask_lab_commands(&self, out: &mut [u8]) -> Reply {
        let (settings, command) = (self.settings(), self.run(0));
        match self.call {
            Call::LabAnswer => crate::lab_answer(settings, command, self.run(1), self.run(2), out),
            _ => crate::pin_block(settings, command, out),
        }
    }

    fn ask_ciphers(&self, out: &mut [u8]) -> Reply {
        let [key, block] = [self.run(0), self.run(1)];
        match self.call {
            Call::DesEncipher => crate::des_encipher(key, block, out),
            Call::DesDecipher => crate::des_decipher(key, block, out),
            Call::TdesEncipher => crate::tdes_encipher(key, block, out),
            _ => crate::tdes_decipher(key, block, out),
        }
    }

    /// This call says yes or no and replies nothing else: the number is what it returns.
    fn ask_parity(&self) -> Reply {
        Reply::new(u32::from(crate::odd_parity(self.run(0))), 0, Point::NOWHERE)
    }

    /// This call takes nothing and replies nothing; the case's numbers are the settings that it
    /// must hand back.
    fn ask_usual(&self) -> Reply {
        assert_eq!(crate::usual(), self.settings());
        Reply::done(0)
    }

    /// The code that a command carries behind its header, if it has so many bytes.
    pub fn code(&self) -> Option<[u8; CODE]> {
        let header = usize::try_from(self.numbers[0]).ok()?;
        self.run(0).get(header..)?.first_chunk().copied()
    }

    fn run(&self, index: usize) -> &[u8] {
        &self.runs[index]
    }

    /// The makers of cases keep every number but the header below two to the 32nd.
    fn number(&self, index: usize) -> u32 {
        u32::try_from(self.numbers[index]).expect("a number argument of 32 bits")
    }

    fn flag(&self, index: usize) -> u8 {
        u8::try_from(self.numbers[index]).expect("a flag of 8 bits")
    }

    fn settings(&self) -> Settings {
        let header = usize::try_from(self.numbers[0]).expect("a header of the machine's size");
        Settings::of_face(header, self.flag(1), self.flag(2))
    }
}
