//! Words of bytes, compared with words written out by hand.
use crate::checks::same;
use judy_packing::{byte, pack, word_at};

#[test]
fn bytes_stand_highest_first(rt: HostRuntime) {
    same(&rt, pack(b"ABCDEFGH"), 0x4142_4344_4546_4748);
    same(&rt, pack(b"AB"), 0x4142_0000_0000_0000);
    same(&rt, pack(b""), 0);
    same(&rt, pack(b"\xff"), 0xff00_0000_0000_0000);
}

#[test]
fn a_byte_of_a_word(rt: HostRuntime) {
    same(&rt, byte(0x4142_4344_4546_4748, 0), b'A');
    same(&rt, byte(0x4142_4344_4546_4748, 7), b'H');
    same(&rt, byte(0xff00_0000_0000_0000, 1), 0);
}

#[test]
fn words_of_a_string(rt: HostRuntime) {
    same(&rt, word_at(b"ABCDEFGHIJ", 0), 0x4142_4344_4546_4748);
    same(&rt, word_at(b"ABCDEFGHIJ", 1), 0x494a_0000_0000_0000);
    same(&rt, word_at(b"ABCDEFGH", 1), 0);
}
