//! Commands answered with clear lab keys: whole ones, and every refusal in its order.

mod common;

use common::command::Command;
use common::lab::{answered, pin_key, pvk, sealed, PIN_KEYS, PVKS};
use common::{at, bk, bytes, done, refused, unrestricted, verification, UNTOUCHED};
use reference::{lab_answer, tdes_encipher, usual, Reply, Settings};

fn bk() -> Command {
    bk::of_the_paper().with(bk::PIN_BLOCK, sealed())
}

/// With the offset that `pvk` makes.
fn verifying(code: &[u8]) -> Command {
    verification::of_the_paper(code)
        .with(verification::PIN_BLOCK, sealed())
        .with(verification::OFFSET, b"6133FFFFFFFF")
}

fn with_keys(command: &Command, pin_key: &[u8], pvk: &[u8]) -> (Reply, Vec<u8>) {
    answered(usual(), &command.bytes(), [pin_key, pvk])
}

/// A clear block under `pin_key`, as characters.
fn seal(block: &str) -> Vec<u8> {
    let mut sealed = [0; 8];
    assert_eq!(tdes_encipher(&pin_key(), &bytes(block), &mut sealed), done(8));
    format!("{:016X}", u64::from_be_bytes(sealed)).into_bytes()
}

/// Every pair of two keys and three, whatever letter stands in the command.
#[test]
fn an_offset_is_made() {
    let double = [b"U".to_vec(), vec![b'0'; 32]].concat();
    let triple = [b"T".to_vec(), vec![b'0'; 48]].concat();
    for (pin_key, sealed) in PIN_KEYS {
        for (pvk, offset) in PVKS {
            for letters in [[&double, &double], [&double, &triple], [&triple, &double]] {
                let command = bk::of_the_paper()
                    .with(bk::PIN_KEY, letters[0])
                    .with(bk::PVK, letters[1])
                    .with(bk::PIN_BLOCK, sealed.as_bytes())
                    .with(bk::OPTIONS, b"\x19end");
                let (reply, response) = with_keys(&command, &bytes(pin_key), &bytes(pvk));
                assert_eq!(reply, done(24));
                let wanted = format!("HDR1BL00{offset}FFFFFFFF\x19end");
                assert_eq!(response, wanted.as_bytes());
            }
        }
    }
}

#[test]
fn an_offset_is_verified() {
    for (code, response_code) in verification::CODES {
        for (pin_key, sealed) in PIN_KEYS {
            for (pvk, offset) in PVKS {
                let command = verification::of_the_paper(code)
                    .with(verification::PIN_BLOCK, sealed.as_bytes())
                    .with(verification::OFFSET, format!("{offset}FFFFFFFF").as_bytes())
                    .with(verification::OPTIONS, b"\x19end");
                let (reply, response) = with_keys(&command, &bytes(pin_key), &bytes(pvk));
                assert_eq!(reply, done(12));
                assert_eq!(response, [b"HDR1", response_code, b"00\x19end"].concat());
            }
        }
        let other = verifying(code).with(verification::OFFSET, b"6134FFFFFFFF");
        let (reply, response) = with_keys(&other, &pin_key(), &pvk());
        assert_eq!(reply, at(0, 0, 1, 8));
        assert_eq!(response, [b"HDR1", response_code, b"01"].concat());
    }
}

/// Another PIN key finds a block that nobody made, here with control F; another PVK makes another
/// offset.
#[test]
fn other_keys_of_good_parity() {
    let other_pin_key = bytes("0123456789ABCDEF FEDCBA9876543213");
    let (reply, response) = with_keys(&bk(), &other_pin_key, &pvk());
    assert_eq!((reply, &response[..]), (at(0, 0, 20, 8), &b"HDR1BL20"[..]));
    let (_, response) = with_keys(&bk(), &pin_key(), &bytes(PVKS[1].0));
    assert_eq!(response, b"HDR1BL008517FFFFFFFF");
    let (reply, _) = with_keys(&verifying(b"DA"), &pin_key(), &bytes(PVKS[1].0));
    assert_eq!(reply.number, 1);
}

/// One byte at a time, of either key and of either length; the PIN key is judged first.
#[test]
fn parity_in_each_byte() {
    for (pin_key, _) in PIN_KEYS {
        for (pvk, _) in PVKS {
            let (pin_key, pvk) = (bytes(pin_key), bytes(pvk));
            for place in 0..pin_key.len() {
                let mut spoilt = pin_key.clone();
                spoilt[place] ^= 1;
                let (reply, response) = with_keys(&bk(), &spoilt, &pvk);
                assert_eq!((reply, &response[..]), (at(0, 0, 10, 8), &b"HDR1BL10"[..]));
            }
            for place in 0..pvk.len() {
                let mut spoilt = pvk.clone();
                spoilt[place] ^= 1;
                let (reply, response) = with_keys(&bk(), &pin_key, &spoilt);
                assert_eq!((reply, &response[..]), (at(0, 0, 11, 8), &b"HDR1BL11"[..]));
                let mut both = pin_key.clone();
                both[0] ^= 1;
                assert_eq!(with_keys(&bk(), &both, &spoilt).0.number, 10);
            }
        }
    }
}

/// 15 points at the command's length and at no field, before both parities: 135 bytes of BK, 146
/// of DA and EA.
#[test]
fn keys_of_neither_length() {
    let commands = [(bk(), 135), (verifying(b"DA"), 146), (verifying(b"EA"), 146)];
    for length in (0..=48).chain([256 + 16, 256 + 24, 65_536 + 16]) {
        let is_lab_key = [16, 24].contains(&length);
        for byte in [0x01, 0x00] {
            let key = vec![byte; length];
            for (command, end) in &commands {
                for keys in [[&key, &pvk()], [&pin_key(), &key], [&key, &vec![0; 16]]] {
                    let (reply, _) = with_keys(command, keys[0], keys[1]);
                    assert_eq!(reply == at(*end, 0, 15, 8), !is_lab_key, "{length}");
                }
            }
        }
    }
    let (_, response) = with_keys(&bk(), &[], &pvk());
    assert_eq!(response, b"HDR1BL15");
}

/// All that a call is handed, so that faults can be heaped up.
#[derive(Clone)]
struct Trial {
    room: usize,
    settings: Settings,
    command: Command,
    pin_key: Vec<u8>,
    pvk: Vec<u8>,
}

impl Trial {
    fn put(&mut self, field: usize, text: &[u8]) {
        self.command = self.command.clone().with(field, text);
    }

    fn reply(&self) -> Reply {
        let mut out = vec![UNTOUCHED; self.room];
        let command = self.command.bytes();
        lab_answer(self.settings, &command, &self.pin_key, &self.pvk, &mut out)
    }
}

/// Each fault with its number and where it points, in the order in which they are judged.
type Step = ((u32, u32, u32), fn(&mut Trial));

/// The command has 145 bytes with its weak list; the byte behind it makes one more.
const BK_STEPS: [Step; 12] = [
    ((901, 0, 0), |trial| trial.room = 64),
    ((902, 0, 0), |trial| trial.settings.header = 17),
    ((68, 0, 0), |trial| trial.put(bk::CODE, b"BL")),
    ((23, 91, 5), |trial| trial.put(bk::FORMAT, b"02")),
    ((15, 145, 0), |trial| trial.put(bk::OPTIONS, b";010534567X")),
    ((15, 145, 0), |trial| trial.pvk.truncate(15)),
    ((15, 145, 0), |trial| trial.pin_key.push(0x01)),
    ((10, 0, 0), |trial| trial.pin_key[3] ^= 1),
    ((11, 0, 0), |trial| trial.pvk[3] ^= 1),
    ((20, 0, 0), |trial| trial.put(bk::PIN_BLOCK, &seal("0534167FFFEDCBA0"))),
    ((81, 0, 0), |trial| trial.put(bk::CHECK, b"06")),
    ((86, 0, 0), |_| {}),
];

/// From each step on all faults at once: the first of them is told.
#[test]
fn the_order_of_refusals() {
    let command = bk().with(bk::OPTIONS, b";010534567");
    let whole = Trial { room: 65, settings: usual(), command, pin_key: pin_key(), pvk: pvk() };
    for first in 0..BK_STEPS.len() {
        let mut trial = whole.clone();
        BK_STEPS[first..].iter().for_each(|(_, damage)| damage(&mut trial));
        let reply = trial.reply();
        assert_eq!((reply.number, reply.place, reply.field), BK_STEPS[first].0, "step {first}");
        let writes = reply.number < 900;
        assert_eq!(reply.written, if writes { 8 } else { 0 });
    }
    let mut trial = whole;
    trial.put(bk::OPTIONS, b";010512345");
    assert_eq!(trial.reply(), done(20));
}

/// 24 before a wrong fill, 20 for a wrong control; then 81 of a verdict before its 01.
#[test]
fn blocks_and_verdicts() {
    let number = |command: &Command| with_keys(command, &pin_key(), &pvk()).0.number;
    let block = |clear: &str| number(&bk().with(bk::PIN_BLOCK, &seal(clear)));
    assert_eq!(block("0334167FFFEDCBA0"), 24);
    assert_eq!(block("0D34167FFFEDCBA0"), 24);
    assert_eq!(block("1334167FFFEDCBA9"), 20);
    let da = verifying(b"DA").with(verification::OFFSET, b"61334FFFFFFF");
    assert_eq!(number(&da), 81);
    assert_eq!(number(&da.with(verification::CHECK, b"05")), 1);
}

/// Ids are judged before the keys.
#[test]
fn ids_come_before_lab_keys() {
    let command = bk::with_key_blocks().with(bk::PIN_BLOCK, sealed()).with(bk::OPTIONS, b"%04");
    let (reply, _) = with_keys(&command, &[], &[]);
    assert_eq!(reply, at(103, 11, 15, 8));
    let (reply, _) = with_keys(&command.with(bk::OPTIONS, b"%03"), &[], &[]);
    assert_eq!(reply, at(106, 0, 15, 8));
}

/// The restricted setting is BK's affair here too; format 03 under either.
#[test]
fn restricted_formats() {
    let clear = "34567FFFFFFFFFFF";
    let bk = bk().with(bk::PIN_BLOCK, &seal(clear)).with(bk::FORMAT, b"03");
    assert_eq!(with_keys(&bk, &pin_key(), &pvk()).0, at(91, 5, 69, 8));
    let (_, response) = answered(unrestricted(), &bk.bytes(), [&pin_key(), &pvk()]);
    assert_eq!(response, b"HDR1BL006133FFFFFFFF");
    let ea = verifying(b"EA")
        .with(verification::PIN_BLOCK, &seal(clear))
        .with(verification::FORMAT, b"03");
    assert_eq!(with_keys(&ea, &pin_key(), &pvk()).0, done(8));
}

/// 901 and 902 write nothing, and 65 bytes are enough.
#[test]
fn room_and_frame() {
    let mut out = [UNTOUCHED; 64];
    let command = bk().bytes();
    assert_eq!(lab_answer(usual(), &command, &pin_key(), &pvk(), &mut out), refused(901));
    assert_eq!(out, [UNTOUCHED; 64]);
    let mut out = [UNTOUCHED; 65];
    assert_eq!(lab_answer(usual(), b"HDR1B", &pin_key(), &pvk(), &mut out), refused(902));
    assert_eq!(out, [UNTOUCHED; 65]);
    assert_eq!(lab_answer(usual(), &command, &pin_key(), &pvk(), &mut out), done(20));
}
