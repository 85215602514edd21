//! BK as the paper runs it, field after field.

use super::command::Command;
use super::{ACCOUNT, TABLE};

/// The fields' places in a [`Command`]; the header is the first.
pub const HEADER: usize = 0;
pub const CODE: usize = 1;
pub const KEY_TYPE: usize = 2;
pub const PIN_KEY: usize = 3;
pub const PVK: usize = 4;
pub const PIN_BLOCK: usize = 5;
pub const FORMAT: usize = 6;
pub const CHECK: usize = 7;
pub const ACCOUNT_FIELD: usize = 8;
pub const TABLE_FIELD: usize = 9;
pub const VALIDATION: usize = 10;
pub const OPTIONS: usize = 11;

pub fn of_the_paper() -> Command {
    let key = [b"U".to_vec(), vec![b'0'; 32]].concat();
    let fields = vec![
        b"HDR1".to_vec(),
        b"BK".to_vec(),
        b"001".to_vec(),
        key.clone(),
        key,
        vec![b'0'; 16],
        b"01".to_vec(),
        b"04".to_vec(),
        ACCOUNT.to_vec(),
        TABLE.to_vec(),
        b"0123456789AN".to_vec(),
        vec![],
    ];
    Command { fields }
}

/// With two key blocks of 16 characters, LMK id 03.
pub fn with_key_blocks() -> Command {
    of_the_paper()
        .with(KEY_TYPE, b"FFF")
        .with(PIN_KEY, b"S1001672TB00N0003")
        .with(PVK, b"S00016V1TN00N0003")
}
