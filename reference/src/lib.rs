//! A second reading of the paper `01-scope`, and of the first five requests of
//! `02-change-requests`, written without sight of the product.
//!
//! Every call takes what the matching call of the C face takes: numbers, byte runs and lent
//! output. It answers with a [`Reply`], and it allocates nothing.
//!
//! "The paper" in the comments is `01-scope`, as far as no request has changed it; "the open
//! points" are the readings which the design settles where the paper leaves a choice.

pub mod account;
pub mod block;
pub mod block_calls;
pub mod cases;
pub mod cipher_calls;
pub mod command;
pub mod command_calls;
pub mod cursor;
pub mod des;
#[rustfmt::skip] // a row of the standard is a row there
pub mod des_tables;
pub mod fields;
pub mod format;
pub mod key_field;
pub mod lab_calls;
pub mod natural;
pub mod offset;
pub mod offset_calls;
pub mod pin;
pub mod point;
pub mod pvv;
pub mod reply;
pub mod settings;
pub mod triple_des;
pub mod validation;

pub use block_calls::{read_block, translate, write_block};
pub use cipher_calls::{des_decipher, des_encipher, key_check, tdes_decipher, tdes_encipher};
pub use command_calls::{answer, ask, pin_block, usual};
pub use lab_calls::lab_answer;
pub use offset_calls::{differences, natural_pin, offset, offset_of_digits, offset_verdict};
pub use pvv::{pvv, pvv_input, pvv_verdict};
pub use reply::{Refusal, Reply};
pub use settings::Settings;
pub use triple_des::odd_parity;
pub use validation::validation_block;
