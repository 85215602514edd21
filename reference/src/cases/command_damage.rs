//! Damage to the fields of a command, and to what the key box hands over with it.

use super::case::Call;
use super::dice::Dice;
use super::draft::{number_of, printable, two_digits, yes, Draft, LMK_MARK, TRAILER_MARK};
use super::keys::{self, Place};
use super::lab_damage::OF_LAB;
use super::parts;
use super::validation;
use super::weak::WeakList;
use crate::command::Purpose;

/// How many kinds of damage are of use to every call, and how many more are judged after the
/// fields, by the answering call alone. The lab's has kinds of its own there.
const OF_FIELDS: usize = 26;
const OF_KEY_BOX: usize = 16;

impl Draft {
    /// One damage.
    pub fn damage(&mut self, dice: &mut Dice) {
        let behind_the_fields = match self.call {
            Call::Answer => OF_KEY_BOX,
            Call::LabAnswer => OF_LAB,
            _ => 0,
        };
        match dice.below(OF_FIELDS + behind_the_fields) {
            0 => self.out = parts::short_out(dice, self.call),
            1 => self.damage_frame(dice),
            2 => self.damage_code(dice),
            3 => self.damage_key_type_or_maximum(dice),
            4..=6 => self.damage_pin_key(dice),
            7..=9 => self.damage_pvk(dice),
            10 => self.damage_pin_block_field(dice),
            11 => self.format = wrong_format(dice),
            12 => self.format = two_digits(dice.pick(&parts::UNBUILT_CODES)),
            13 => self.restrict_or_borrow(dice),
            14 => self.format = two_digits(dice.pick(&parts::BUILT_CODES)),
            15 => self.check = wrong_check(dice),
            16 => parts::damage_digit_character(dice, &mut self.account),
            17 => parts::damage_digit_character(dice, &mut self.table),
            18 => validation::damage(dice, &mut self.validation),
            19 | 20 => self.damage_weak_list_or_offset(dice),
            21 => self.damage_lmk(dice),
            22 => self.disagree(dice),
            23 => self.damage_trailer(dice),
            24 => self.leave_over(dice),
            25 => self.lengthen(dice),
            _ if self.call == Call::LabAnswer => self.damage_lab(dice),
            _ => self.damage_key_box(dice),
        }
    }

    /// What the answering call judges after the fields.
    fn damage_key_box(&mut self, dice: &mut Dice) {
        match dice.below(OF_KEY_BOX) {
            0 => self.pin_block = slice(dice),
            1 => self.enciphered = slice(dice),
            2 => (self.pin_block, self.enciphered) = (slice(dice), slice(dice)),
            3 => self.parities[0] = 0,
            4 => self.parities[1] = 0,
            5 => self.parities = [0, 0],
            6 => self.check_too_long(dice),
            7 => self.check = two_digits(dice.between(4, 12) as u64),
            8 | 9 => self.spoil_the_pin(dice),
            _ => self.damage_block(dice),
        }
    }

    fn damage_code(&mut self, dice: &mut Dice) {
        self.code = match self.command.purpose {
            Purpose::MakeOffset => code(dice),
            Purpose::VerifyOffset => self.other_code(dice),
        };
    }

    /// The field that stands before BK's keys, or behind those of the others.
    fn damage_key_type_or_maximum(&mut self, dice: &mut Dice) {
        match self.command.purpose {
            Purpose::MakeOffset => self.key_type = key_type(dice),
            Purpose::VerifyOffset => self.damage_maximum(dice),
        }
    }

    fn damage_pin_key(&mut self, dice: &mut Dice) {
        let key_type = self.key_type_of(&self.pin_key);
        keys::damage(dice, &key_type, Place::pin_key(self.command), &mut self.pin_key);
    }

    fn damage_pvk(&mut self, dice: &mut Dice) {
        let key_type = self.key_type_of(&self.pvk);
        keys::damage(dice, &key_type, Place::pvk(self.command), &mut self.pvk);
    }

    /// BK's is a field; where there is none, the key's own letter says it.
    fn key_type_of(&self, key: &[u8]) -> Vec<u8> {
        match (self.command.purpose, key) {
            (Purpose::MakeOffset, _) => self.key_type.clone(),
            (Purpose::VerifyOffset, [b'S', ..]) => b"FFF".to_vec(),
            (Purpose::VerifyOffset, _) => b"001".to_vec(),
        }
    }

    /// Field 10.
    fn damage_weak_list_or_offset(&mut self, dice: &mut Dice) {
        match self.command.purpose {
            Purpose::MakeOffset => self.damage_weak_list(dice),
            Purpose::VerifyOffset => self.damage_offset(dice),
        }
    }

    /// The PIN is on the weak list, or does not fit the offset.
    pub fn spoil_the_pin(&mut self, dice: &mut Dice) {
        match self.command.purpose {
            Purpose::MakeOffset => self.weak = Some(WeakList::with_pin(dice, &self.pin)),
            Purpose::VerifyOffset => self.put_other_offset(dice),
        }
    }

    pub fn damage_block(&mut self, dice: &mut Dice) {
        let code = number_of(&self.format);
        parts::damage_block(dice, code, &self.account, &mut self.pin_block);
    }

    /// No check length is longer than a PIN of 12 digits.
    pub fn check_too_long(&mut self, dice: &mut Dice) {
        self.settings[2] = 0;
        self.check = two_digits(dice.between(self.pin.len().min(11) + 1, 12) as u64);
        if self.command.purpose == Purpose::VerifyOffset {
            self.let_the_offset_follow(dice);
        }
    }

    /// A header setting over 16, one that is not the header's length, or a byte that no header
    /// has.
    fn damage_frame(&mut self, dice: &mut Dice) {
        match dice.below(4) {
            0 => self.settings[0] = dice.pick(&[17, 18, 64, 4096, 1 << 32, 1 << 63, u64::MAX]),
            1 => self.settings[0] = dice.below(18) as u64,
            2 => {
                self.settings[0] = 17;
                self.header = printable(dice, 17);
            }
            _ if self.header.is_empty() => {}
            _ => {
                let place = dice.below(self.header.len());
                self.header[place] = dice.pick(&[0x00, 0x19, 0x1F, 0x20, 0x7E, 0x7F, 0x80, 0xFF]);
            }
        }
    }

    fn damage_pin_block_field(&mut self, dice: &mut Dice) {
        match dice.below(3) {
            0 => parts::damage_length(dice, &mut self.enciphered_pin_block),
            _ if self.enciphered_pin_block.is_empty() => {}
            _ => {
                let place = dice.below(self.enciphered_pin_block.len());
                self.enciphered_pin_block[place] = dice.pick(b"abcdefG@/:`g \x00\xFF");
            }
        }
    }

    /// What is BK's affair, the restricted setting, or what the others differ in, the keys.
    fn restrict_or_borrow(&mut self, dice: &mut Dice) {
        match self.command.purpose {
            Purpose::MakeOffset => self.restrict(dice),
            Purpose::VerifyOffset => self.borrow_keys(dice),
        }
    }

    /// Any built format under the restricted setting.
    fn restrict(&mut self, dice: &mut Dice) {
        self.settings[1] = yes(dice);
        self.format = two_digits(dice.pick(&parts::BUILT_CODES));
    }

    /// Most often as the command's last field, so that its end can be missing.
    fn damage_weak_list(&mut self, dice: &mut Dice) {
        let mut weak = self.weak.take().unwrap_or_else(|| WeakList::near(dice, &self.pin));
        weak.damage(dice);
        self.weak = Some(weak);
        if dice.chance(60) {
            self.lmk.clear();
            self.trailer.clear();
        }
    }

    /// An id that is no id, in any of its three places.
    fn damage_lmk(&mut self, dice: &mut Dice) {
        let wrong = dice.pick(&[b"10", b"A0", b"0A", b"0/", b"0:", b"99", b" 0", b"0 "]);
        match dice.below(6) {
            0 => keys::put_lmk(&mut self.pin_key, wrong),
            1 => keys::put_lmk(&mut self.pvk, wrong),
            2 | 3 => self.lmk = [&[LMK_MARK], &wrong[..]].concat(),
            _ => {
                self.lmk = dice.pick(&[&b"%"[..], b"%0"]).to_vec();
                if dice.chance(60) {
                    self.trailer.clear();
                }
            }
        }
    }

    /// Ids that do not all agree: between the keys alone, or between any of the three places.
    fn disagree(&mut self, dice: &mut Dice) {
        let one = dice.below(10) as u8;
        let other = (one + dice.between(1, 9) as u8) % 10;
        let third = dice.below(10) as u8;
        let [pin_key, pvk, own] = dice.pick(&[
            [one, other, one],
            [one, other, other],
            [one, one, other],
            [one, other, third],
        ]);
        self.key_type = b"FFF".to_vec();
        self.pin_key = keys::whole(dice, b"FFF", Place::pin_key(self.command), pin_key);
        self.pvk = keys::whole(dice, b"FFF", Place::pvk(self.command), pvk);
        self.lmk = vec![LMK_MARK, b'0', b'0' + own];
        // The last id that is present stands in the PVK where the LMK field has none.
        if pin_key != pvk && dice.chance(50) {
            self.lmk.clear();
        } else if self.command.purpose == Purpose::VerifyOffset {
            self.put_hex_key_beside_key_block(dice);
        }
    }

    /// Lengths about the longest, and characters about the printable ones, a second mark included.
    fn damage_trailer(&mut self, dice: &mut Dice) {
        let length = dice.pick(&[0, 1, 31, 32, 32, 33, 33, 34, 40]);
        self.trailer = dice.characters(length, b"AZaz09 ~;%");
        self.trailer.insert(0, TRAILER_MARK);
        if length > 0 && dice.chance(50) {
            let place = dice.between(1, length);
            self.trailer[place] =
                dice.pick(&[0x00, 0x18, 0x19, 0x19, 0x1F, 0x20, 0x7E, 0x7F, 0x80, 0xFF]);
        }
    }

    /// Something behind the last field, or the optional fields in another order. Now and then the
    /// ids disagree besides: they are judged behind it.
    fn leave_over(&mut self, dice: &mut Dice) {
        if dice.chance(20) {
            self.disagree(dice);
        }
        match dice.below(3) {
            0 => {
                let count = dice.between(1, 3);
                self.trailer.extend(dice.characters(count, b"A0;%\x19\x00"));
            }
            1 => self.lmk.extend(dice.pick(&[&b"%00"[..], b";00", b";01041234", b"0"])),
            _ => std::mem::swap(&mut self.lmk, &mut self.trailer),
        }
    }

    /// To the longest command, or a little beyond.
    fn lengthen(&mut self, dice: &mut Dice) {
        let length = dice.pick(&[4095, 4096, 4096, 4096, 4097, 4097, 4097, 4098, 5000]);
        let missing = usize::saturating_sub(length, self.length());
        let filling = dice.pick(b"A0\x00\xFF");
        self.trailer.resize(self.trailer.len() + missing, filling);
    }
}

/// A slice of another length than 8, or of 8 random bytes.
fn slice(dice: &mut Dice) -> Vec<u8> {
    let length = dice.pick(&[0, 0, 7, 7, 7, 8, 9, 9, 9, 1, 15, 16, 17]);
    dice.bytes(length)
}

fn code(dice: &mut Dice) -> Vec<u8> {
    let codes: [&[u8]; 10] =
        [b"BL", b"CK", b"bk", b"Bk", b"bK", b"\xFFK", b"\x00\x00", b"KB", b"EE", b"BJ"];
    match dice.below(10) {
        0..=5 => dice.pick(&codes).to_vec(),
        6 => b"B\xFF".to_vec(),
        7 => vec![dice.byte(), 0xFF],
        8 => vec![b'B', dice.byte()],
        _ => dice.bytes(2),
    }
}

fn key_type(dice: &mut Dice) -> Vec<u8> {
    let types: [&[u8]; 14] = [
        b"000", b"003", b"FFE", b"fff", b"FFf", b"01", b"0001", b"F00", b"00F", b"FF1", b"0\x001",
        b"001", b"002", b"FFF",
    ];
    dice.pick(&types).to_vec()
}

fn wrong_format(dice: &mut Dice) -> Vec<u8> {
    match dice.below(3) {
        0 => dice.pick(&[b"0A", b"A1", b" 1", b"1 ", b":1", b"0\x00", b"/5", b"3\xFF"]).to_vec(),
        _ => two_digits(parts::unknown_code(dice) % 100),
    }
}

fn wrong_check(dice: &mut Dice) -> Vec<u8> {
    let checks: [&[u8]; 15] = [
        b"00", b"01", b"02", b"03", b"03", b"13", b"13", b"14", b"20", b"99", b"4 ", b" 4", b"0:",
        b"0A", b"4",
    ];
    dice.pick(&checks).to_vec()
}
