//! Cases for reading, writing and translating blocks.

use super::case::{Call, Case};
use super::dice::Dice;
use super::parts;

pub const CALLS: [Call; 3] = [Call::ReadBlock, Call::WriteBlock, Call::Translate];

/// Everything any of the three calls may take, whole at first.
struct Draft {
    call: Call,
    settings: [u64; 3],
    from: u64,
    to: u64,
    pin: Vec<u8>,
    block: Vec<u8>,
    account: Vec<u8>,
    fill: Vec<u8>,
    out: Option<Vec<u8>>,
}

pub fn case(dice: &mut Dice) -> Case {
    let call = dice.pick(&CALLS);
    case_of(dice, call)
}

/// About half of the cases are left whole; some of the others are damaged twice, so that the
/// order of judging decides.
pub fn case_of(dice: &mut Dice, call: Call) -> Case {
    let mut draft = Draft::whole(dice, call);
    if dice.chance(52) {
        draft.damage(dice);
        if dice.chance(25) {
            draft.damage(dice);
        }
    }
    draft.into_case()
}

impl Draft {
    fn whole(dice: &mut Dice, call: Call) -> Draft {
        let settings = parts::lower_settings(dice);
        let (from, to) = formats(dice, settings[1] != 0);
        let pin = parts::pin(dice);
        let account = parts::account(dice);
        let block = parts::block(dice, from, &pin, &account);
        let fill = parts::fill(dice);
        let out = parts::enough_out(dice, call);
        Draft { call, settings, from, to, pin, block, account, fill, out }
    }

    fn damage(&mut self, dice: &mut Dice) {
        match dice.below(20) {
            0 => self.out = parts::short_out(dice, self.call),
            1 => parts::damage_digit_run(dice, &mut self.account),
            2 => self.damage_run_length(dice),
            3 => self.from = parts::unknown_code(dice),
            4 => self.to = parts::unknown_code(dice),
            5 => self.from = dice.pick(&parts::UNBUILT_CODES),
            6 => self.to = dice.pick(&parts::UNBUILT_CODES),
            7 => self.any_pair_restricted(dice),
            8 => self.account = parts::account(dice),
            9 => self.pin_of_wrong_length(dice),
            10 => parts::damage_digit_value(dice, &mut self.pin),
            11 => self.rubbish(dice),
            _ if self.call == Call::WriteBlock => self.damage_pin(dice),
            _ => parts::damage_block(dice, self.from, &self.account, &mut self.block),
        }
    }

    fn damage_run_length(&mut self, dice: &mut Dice) {
        match dice.below(3) {
            0 => parts::damage_length(dice, &mut self.block),
            1 => parts::damage_length(dice, &mut self.fill),
            _ => parts::damage_length(dice, &mut self.account),
        }
    }

    fn any_pair_restricted(&mut self, dice: &mut Dice) {
        self.settings[1] = dice.pick(&[1, 2, 255]);
        self.to = dice.pick(&parts::BUILT_CODES);
    }

    fn pin_of_wrong_length(&mut self, dice: &mut Dice) {
        let length = dice.pick(&[0, 1, 2, 3, 3, 13, 13, 14, 15, 16, 17, 18, 19, 20]);
        self.pin = parts::digit_values(dice, length);
    }

    fn damage_pin(&mut self, dice: &mut Dice) {
        match dice.below(4) {
            0 => self.pin_of_wrong_length(dice),
            1 | 2 => parts::damage_digit_value(dice, &mut self.pin),
            _ => {
                self.pin_of_wrong_length(dice);
                parts::damage_digit_value(dice, &mut self.pin);
            }
        }
    }

    /// A block that nobody made.
    fn rubbish(&mut self, dice: &mut Dice) {
        self.block = dice.bytes(8);
        if dice.chance(20) {
            self.pin = dice.bytes(8);
        }
    }

    fn into_case(self) -> Case {
        let [header, restricted, variable] = self.settings;
        let (numbers, runs) = match self.call {
            Call::ReadBlock => (vec![self.from], vec![self.block, self.account]),
            Call::WriteBlock => (vec![self.from], vec![self.pin, self.account, self.fill]),
            _ => (
                vec![header, restricted, variable, self.from, self.to],
                vec![self.block, self.account, self.fill],
            ),
        };
        Case { call: self.call, numbers, runs, out: self.out }
    }
}

/// A pair that translation allows under the setting.
fn formats(dice: &mut Dice, restricted: bool) -> (u64, u64) {
    if !restricted {
        return (dice.pick(&parts::BUILT_CODES), dice.pick(&parts::BUILT_CODES));
    }
    dice.pick(&[(5, 1), (5, 47), (5, 5), (1, 1), (1, 47), (47, 1), (47, 47)])
}
