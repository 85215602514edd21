//! The PIN block of a command: its bytes as they came, and refusals as the asking call has them.

mod common;

use common::command::Command;
use common::{at, bk, bytes, done, refused, unrestricted, verification, UNTOUCHED};
use reference::{ask, pin_block, usual, Reply, Settings};

const FIELD: &[u8] = b"0123456789ABCDEF";

fn commands() -> [Command; 3] {
    let [da, ea] = verification::both();
    [bk::of_the_paper(), da, ea]
}

/// The field has the same place in the tables of all three.
fn with_field(command: Command, field: &[u8]) -> Command {
    assert_eq!(bk::PIN_BLOCK, verification::PIN_BLOCK);
    command.with(bk::PIN_BLOCK, field)
}

/// The reply and what it wrote; the asking call must reply alike.
fn cut_out(settings: Settings, command: &[u8]) -> (Reply, Vec<u8>) {
    let mut out = vec![UNTOUCHED; 20];
    let reply = pin_block(settings, command, &mut out);
    assert_eq!(ask(settings, command, &mut [0; 8]), reply);
    let rest = out.split_off(reply.written as usize);
    assert!(rest.iter().all(|&byte| byte == UNTOUCHED));
    (reply, out)
}

#[test]
fn bytes_of_the_field() {
    for command in commands() {
        let (reply, written) = cut_out(usual(), &with_field(command, FIELD).bytes());
        assert_eq!((reply, written), (done(8), bytes("01 23 45 67 89 AB CD EF")));
    }
}

/// No byte that the field can hold is refused: nothing looks into the block.
#[test]
fn the_block_is_not_judged() {
    for byte in 0..=255_u8 {
        for command in commands() {
            let field = format!("{byte:02X}").repeat(8);
            let (reply, written) = cut_out(usual(), &with_field(command, field.as_bytes()).bytes());
            assert_eq!((reply, written), (done(8), vec![byte; 8]));
        }
    }
}

/// Twice the block's length: 15 bytes are too short, for a command without a frame as well.
#[test]
fn room_for_sixteen() {
    let command = with_field(bk::of_the_paper(), FIELD).bytes();
    for room in 0..20 {
        for (command, number) in [(&command[..], 0), (b"HDR1", 902), (b"HDR1BL", 68)] {
            let mut out = vec![UNTOUCHED; room];
            let reply = pin_block(usual(), command, &mut out);
            assert_eq!(reply.number, if room < 16 { 901 } else { number });
            let untouched = out.iter().filter(|&&byte| byte == UNTOUCHED).count();
            assert_eq!(room - untouched, reply.written as usize);
        }
    }
}

#[test]
fn frame_and_code_come_before_the_fields() {
    let command = with_field(bk::of_the_paper(), b"x").bytes();
    let header = |header| Settings { header, ..usual() };
    assert_eq!(cut_out(header(17), &command).0, refused(902));
    assert_eq!(cut_out(usual(), &[&b"HDR\x1F"[..], &command[4..]].concat()).0, refused(902));
    assert_eq!(cut_out(header(3), &command).0, refused(68));
    assert_eq!(cut_out(usual(), &command).0, at(75, 4, 15, 0));
}

/// Faults before the block's field and behind it, left over bytes and ids that disagree.
#[test]
fn every_field_is_judged() {
    let of = |settings, field, text: &[u8]| {
        cut_out(settings, &bk::of_the_paper().with(field, text).bytes()).0
    };
    assert_eq!(of(usual(), bk::KEY_TYPE, b"003"), at(6, 1, 15, 0));
    assert_eq!(of(usual(), bk::PIN_KEY, b"X"), at(9, 2, 26, 0));
    assert_eq!(of(usual(), bk::PIN_BLOCK, b"0123456789ABCDEf"), at(75, 4, 15, 0));
    assert_eq!(of(usual(), bk::FORMAT, b"34"), at(91, 5, 69, 0));
    assert_eq!(of(unrestricted(), bk::FORMAT, b"34"), done(8));
    assert_eq!(of(usual(), bk::CHECK, b"13"), at(93, 6, 15, 0));
    assert_eq!(of(usual(), bk::TABLE_FIELD, b"012345678901234A"), at(107, 8, 25, 0));
    assert_eq!(of(usual(), bk::OPTIONS, b";9"), at(135, 10, 3, 0));
    assert_eq!(of(usual(), bk::OPTIONS, b"%00X"), at(138, 0, 15, 0));
    let ids = bk::with_key_blocks().with(bk::OPTIONS, b"%04").bytes();
    assert_eq!(cut_out(usual(), &ids).0, at(103, 11, 15, 0));
    let da = verification::of_the_paper(b"DA").with(verification::OFFSET, b"123FFFFFFFFF");
    assert_eq!(cut_out(usual(), &da.bytes()).0, at(134, 10, 15, 0));
}
