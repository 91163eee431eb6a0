//! The line of each reply.
use crate::checks::{holds, same};
use crate::lines::asks::{Want, reply_of};
use arrayvec::ArrayVec;
use judy_protocol::write_reply;

static LINES: [(Want, &[u8]); 18] = [
    (Want::Int(true), b"1\n"),
    (Want::Int(false), b"0\n"),
    (Want::Index(0), b"1 0\n"),
    (Want::Count(u64::MAX), b"N 18446744073709551615\n"),
    (Want::Value(10), b"V 10\n"),
    (Want::ValueAt(7, 500), b"V 7 500\n"),
    (Want::ValueKey(3, b"\x7f\x01\xab"), b"V 3 x7f01ab\n"),
    (Want::ValueKey(3, b""), b"V 3 x\n"),
    (Want::Entries(0, b""), b"E 0\n"),
    (Want::Entries(2, b" 7 500 8 x"), b"E 2 7 500 8 x\n"),
    (Want::Intersection(0, 0, b""), b"I 0 0\n"),
    (Want::Intersection(9, 2, b" 7 8"), b"I 9 2 7 8\n"),
    (Want::Null, b"NULL\n"),
    (Want::Used(0, 4, 0, 504), b"Q 0 4 0 504\n"),
    (Want::ReadOnly, b"ERR READONLY\n"),
    (Want::Frozen, b"ERR FROZEN\n"),
    (Want::Full, b"FULL\n"),
    (Want::Memory, b"ERR MEMORY\n"),
];

#[test]
fn each_reply(rt: HostRuntime) {
    let mut line = ArrayVec::new();
    for (reply, want) in &LINES {
        write_reply(&reply_of(*reply), &mut line);
        same(&rt, line.as_slice(), *want);
    }
}

const LONGEST_LIST: &[u8] = &[b' '; 4088];

#[test]
fn the_longest_list(rt: HostRuntime) {
    let mut line = ArrayVec::new();
    write_reply(&reply_of(Want::Entries(u16::MAX, LONGEST_LIST)), &mut line);
    same(&rt, line.len(), 4096);
    holds(&rt, line.starts_with(b"E 65535  "));
    holds(&rt, line.ends_with(b"  \n"));
}

const LONGEST_INTERSECTION: &[u8] = &[b' '; 4067];

#[test]
fn the_longest_intersection(rt: HostRuntime) {
    let mut line = ArrayVec::new();
    let longest = Want::Intersection(u64::MAX, u16::MAX, LONGEST_INTERSECTION);
    write_reply(&reply_of(longest), &mut line);
    same(&rt, line.len(), 4096);
    holds(&rt, line.starts_with(b"I 18446744073709551615 65535  "));
    holds(&rt, line.ends_with(b"  \n"));
}

const LONGEST_KEY: &[u8] = &[255; 1000];

#[test]
fn the_longest_other_reply(rt: HostRuntime) {
    let mut line = ArrayVec::new();
    write_reply(&reply_of(Want::ValueKey(u64::MAX, LONGEST_KEY)), &mut line);
    same(&rt, line.len(), 2025);
    holds(&rt, line.starts_with(b"V 18446744073709551615 xffff"));
    holds(&rt, line.ends_with(b"ffff\n"));
}
