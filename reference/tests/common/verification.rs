//! DA and EA as the paper's figures make them, field after field.

use super::command::Command;
use super::{ACCOUNT, TABLE};

/// The fields' places in a [`Command`]; the header is the first.
pub const HEADER: usize = 0;
pub const CODE: usize = 1;
pub const PIN_KEY: usize = 2;
pub const PVK: usize = 3;
pub const MAXIMUM: usize = 4;
pub const PIN_BLOCK: usize = 5;
pub const FORMAT: usize = 6;
pub const CHECK: usize = 7;
pub const ACCOUNT_FIELD: usize = 8;
pub const TABLE_FIELD: usize = 9;
pub const VALIDATION: usize = 10;
pub const OFFSET: usize = 11;
pub const OPTIONS: usize = 12;

/// The codes, with those of their responses.
pub const CODES: [(&[u8], &[u8]); 2] = [(b"DA", b"DB"), (b"EA", b"EB")];

/// P2 and P9: PIN 34567, natural 95320, check length 4, offset 9247.
pub fn of_the_paper(code: &[u8]) -> Command {
    let key = [b"U".to_vec(), vec![b'0'; 32]].concat();
    let fields = vec![
        b"HDR1".to_vec(),
        code.to_vec(),
        key.clone(),
        key,
        b"12".to_vec(),
        vec![b'0'; 16],
        b"01".to_vec(),
        b"04".to_vec(),
        ACCOUNT.to_vec(),
        TABLE.to_vec(),
        b"0123456789AN".to_vec(),
        b"9247FFFFFFFF".to_vec(),
        vec![],
    ];
    Command { fields }
}

/// With two key blocks of 16 characters, LMK id 03.
pub fn with_key_blocks(code: &[u8]) -> Command {
    of_the_paper(code).with(PIN_KEY, b"S10016P0TB00N0003").with(PVK, b"S00016V1TN00N0003")
}

/// Both commands, where they are alike.
pub fn both() -> [Command; 2] {
    CODES.map(|(code, _)| of_the_paper(code))
}
