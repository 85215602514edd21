//! A command in its fields; a test replaces one and asks again.

use super::{bytes, UNTOUCHED};
use reference::{answer, ask, Reply, Settings};

/// PIN 34567 and account 400000123456.
pub const P2: &str = "05 34 16 7F FF ED CB A9";
/// Natural 95320 under the usual table.
pub const P9: &str = "9F 3C 0A 71 00 00 00 00";

#[derive(Clone)]
pub struct Command {
    /// The header, the code, then the fields.
    pub fields: Vec<Vec<u8>>,
}

impl Command {
    pub fn with(mut self, field: usize, text: &[u8]) -> Command {
        self.fields[field] = text.to_vec();
        self
    }

    pub fn bytes(&self) -> Vec<u8> {
        self.fields.concat()
    }

    /// Both calls on this command; they must agree as long as the fields decide.
    pub fn number(&self) -> u32 {
        self.told(Settings::usual()).0
    }

    /// The number, and where it points: place and field. Both calls must tell the same, and the
    /// host is told the number alone.
    pub fn told(&self, settings: Settings) -> (u32, u32, u32) {
        let settings = Settings { header: self.fields[0].len(), ..settings };
        let (reply, response) = self.answered(settings);
        let mut out = [UNTOUCHED; 8];
        let asked = ask(settings, &self.bytes(), &mut out);
        assert_eq!(asked, Reply { written: asked.written, ..reply });
        assert_eq!(out == [UNTOUCHED; 8], asked.number != 0);
        if reply.number != 0 {
            let response_code = [self.fields[1][0], self.fields[1][1] + 1];
            let number = format!("{:02}", reply.number).into_bytes();
            assert_eq!(response, [&self.fields[0][..], &response_code, &number].concat());
        }
        (reply.number, reply.place, reply.field)
    }

    pub fn answered(&self, settings: Settings) -> (Reply, Vec<u8>) {
        answered(settings, [true, true], &self.bytes(), &bytes(P2))
    }
}

/// The reply and what it wrote; the bytes behind that must be untouched.
pub fn answered(
    settings: Settings,
    parities: [bool; 2],
    command: &[u8],
    pin_block: &[u8],
) -> (Reply, Vec<u8>) {
    answered_with(settings, parities, command, pin_block, &bytes(P9))
}

/// The same with an enciphered block of the test's own.
pub fn answered_with(
    settings: Settings,
    [pin_key, pvk]: [bool; 2],
    command: &[u8],
    pin_block: &[u8],
    enciphered: &[u8],
) -> (Reply, Vec<u8>) {
    let mut out = vec![UNTOUCHED; 70];
    let reply = answer(settings, pin_key, pvk, command, pin_block, enciphered, &mut out);
    let rest = out.split_off(reply.written as usize);
    assert!(rest.iter().all(|&byte| byte == UNTOUCHED));
    (reply, out)
}
