//! Calls of the reference with the C face's parameters, so that one C loop times both: asking, answering,
//! a triple DES block, and answering with lab keys.

use reference::{Reply, Settings};
use std::slice;

#[repr(C)]
pub struct FaceSettings {
    header: usize,
    restricted: u8,
    variable: u8,
}

#[repr(C)]
pub struct FaceReply {
    number: u32,
    written: u32,
    place: u32,
    field: u32,
}

impl FaceSettings {
    fn inner(&self) -> Settings {
        Settings::of_face(self.header, self.restricted, self.variable)
    }
}

impl FaceReply {
    fn of(reply: Reply) -> FaceReply {
        let Reply { number, written, place, field } = reply;
        FaceReply { number, written, place, field }
    }
}

/// # Safety
/// Each pointer must lend as many bytes as the length beside it says, and `out` for writing.
#[no_mangle]
pub unsafe extern "C" fn reference_ask(
    settings: FaceSettings,
    command: *const u8,
    command_len: usize,
    out: *mut u8,
    out_len: usize,
) -> FaceReply {
    let command = slice::from_raw_parts(command, command_len);
    let out = slice::from_raw_parts_mut(out, out_len);
    FaceReply::of(reference::ask(settings.inner(), command, out))
}

/// # Safety
/// Each pointer must lend as many bytes as the length beside it says, and `out` for writing.
#[no_mangle]
pub unsafe extern "C" fn reference_answer(
    settings: FaceSettings,
    pin_key_parity_good: u8,
    pvk_parity_good: u8,
    command: *const u8,
    command_len: usize,
    pin_block: *const u8,
    pin_block_len: usize,
    enciphered: *const u8,
    enciphered_len: usize,
    out: *mut u8,
    out_len: usize,
) -> FaceReply {
    FaceReply::of(reference::answer(
        settings.inner(),
        pin_key_parity_good != 0,
        pvk_parity_good != 0,
        slice::from_raw_parts(command, command_len),
        slice::from_raw_parts(pin_block, pin_block_len),
        slice::from_raw_parts(enciphered, enciphered_len),
        slice::from_raw_parts_mut(out, out_len),
    ))
}

/// # Safety
/// Each pointer must lend as many bytes as the length beside it says, and `out` for writing.
#[no_mangle]
pub unsafe extern "C" fn reference_tdes_encipher(
    key: *const u8,
    key_len: usize,
    block: *const u8,
    block_len: usize,
    out: *mut u8,
    out_len: usize,
) -> FaceReply {
    FaceReply::of(reference::tdes_encipher(
        slice::from_raw_parts(key, key_len),
        slice::from_raw_parts(block, block_len),
        slice::from_raw_parts_mut(out, out_len),
    ))
}

/// # Safety
/// Each pointer must lend as many bytes as the length beside it says, and `out` for writing.
#[no_mangle]
pub unsafe extern "C" fn reference_lab_answer(
    settings: FaceSettings,
    command: *const u8,
    command_len: usize,
    pin_key: *const u8,
    pin_key_len: usize,
    pvk: *const u8,
    pvk_len: usize,
    out: *mut u8,
    out_len: usize,
) -> FaceReply {
    FaceReply::of(reference::lab_answer(
        settings.inner(),
        slice::from_raw_parts(command, command_len),
        slice::from_raw_parts(pin_key, pin_key_len),
        slice::from_raw_parts(pvk, pvk_len),
        slice::from_raw_parts_mut(out, out_len),
    ))
}
