//! Strings by hand. The expected results come from the manual page and the byte order. Each request
//! for memory may be refused once.
use crate::checks::{holds, holds_at, same, same_at};
use crate::strings::held::Held;
use arrayvec::ArrayVec;
use judy_model::Given;
use judy_string::is_string;
use std::alloc::Global;
use std::process::Abort;
use std::test::Fail;

const A: &[u8] = b"aaaaaaaaaaaaaaaaaaaaaaaa";

const B: &[u8] = b"aaaaaaaabbbbbbbbbbbbbbbb";

#[test]
fn strings_that_a_map_can_hold(rt: HostRuntime) -> Result<(), Fail> {
    holds(&rt, is_string(b""));
    holds(&rt, is_string(b"\xff\x01"));
    holds(&rt, !is_string(b"a\0b"));
    let long = [b'x'; 1001];
    holds(&rt, !is_string(&long));
    holds(&rt, is_string(&long[1..]));
    Ok(())
}

// What a search shows: its value, and the string in the buffer.
fn shows(
    rt: &impl Abort,
    found: Option<u64>,
    buffer: &ArrayVec<u8, 1000>,
    value: Option<u64>,
    key: &[u8],
) {
    same(rt, found, value);
    holds(rt, buffer.as_slice() == key);
}

// The result of the C calls for an insertion: the value before, 0 for a new string.
fn puts(rt: &impl Abort, alloc: Global, map: &mut Held, key: &[u8], value: u64) {
    same_at(
        rt,
        map.insert(rt, alloc, key, Given::Value(value)),
        None,
        value,
    );
}

#[test]
fn unsigned_bytes(rt: HostRuntime) -> Result<(), Fail> {
    let mut map = Held::new(rt.alloc());
    let mut buffer = ArrayVec::new();
    puts(&rt, rt.alloc(), &mut map, b"\x7f", 1);
    puts(&rt, rt.alloc(), &mut map, b"\x80", 2);
    puts(&rt, rt.alloc(), &mut map, b"\x7f\x01", 3);
    let found = map.first(&rt, b"", &mut buffer);
    shows(&rt, found, &buffer, Some(1), b"\x7f");
    let found = map.next(&rt, b"\x7f", &mut buffer);
    shows(&rt, found, &buffer, Some(3), b"\x7f\x01");
    let found = map.next(&rt, b"\x7f\x01", &mut buffer);
    shows(&rt, found, &buffer, Some(2), b"\x80");
    let found = map.last(&rt, b"\xff", &mut buffer);
    shows(&rt, found, &buffer, Some(2), b"\x80");
    let found = map.prev(&rt, b"\x7f", &mut buffer);
    shows(&rt, found, &buffer, None, b"");
    Ok(())
}

#[test]
fn order_of_strings(rt: HostRuntime) -> Result<(), Fail> {
    let mut map = Held::new(rt.alloc());
    let mut buffer = ArrayVec::new();
    puts(&rt, rt.alloc(), &mut map, b"", 1);
    puts(&rt, rt.alloc(), &mut map, b"abcdefg", 2);
    puts(&rt, rt.alloc(), &mut map, b"abcdefgh", 3);
    puts(&rt, rt.alloc(), &mut map, b"abcdefghi", 4);
    let found = map.first(&rt, b"", &mut buffer);
    shows(&rt, found, &buffer, Some(1), b"");
    let found = map.next(&rt, b"", &mut buffer);
    shows(&rt, found, &buffer, Some(2), b"abcdefg");
    let found = map.next(&rt, b"abcdefg", &mut buffer);
    shows(&rt, found, &buffer, Some(3), b"abcdefgh");
    let found = map.next(&rt, b"abcdefgh", &mut buffer);
    shows(&rt, found, &buffer, Some(4), b"abcdefghi");
    let found = map.next(&rt, b"abcdefghi", &mut buffer);
    shows(&rt, found, &buffer, None, b"");
    holds(&rt, map.delete(&rt, b"abcdefgh"));
    let found = map.next(&rt, b"abcdefg", &mut buffer);
    shows(&rt, found, &buffer, Some(4), b"abcdefghi");
    same(&rt, map.clear(), 3);
    same(&rt, map.live_words(), 0);
    Ok(())
}

#[test]
fn searches_between_strings(rt: HostRuntime) -> Result<(), Fail> {
    let mut map = Held::new(rt.alloc());
    let mut buffer = ArrayVec::new();
    puts(&rt, rt.alloc(), &mut map, b"b", 1);
    puts(&rt, rt.alloc(), &mut map, b"abcdefghijklmnop", 2);
    puts(&rt, rt.alloc(), &mut map, b"abcdefghi", 3);
    puts(&rt, rt.alloc(), &mut map, b"abcdefg", 4);
    let found = map.next(&rt, b"abcdefghia", &mut buffer);
    shows(&rt, found, &buffer, Some(2), b"abcdefghijklmnop");
    let found = map.first(&rt, b"abcdefghi", &mut buffer);
    shows(&rt, found, &buffer, Some(3), b"abcdefghi");
    let found = map.last(&rt, b"abcdefghijklmnop", &mut buffer);
    shows(&rt, found, &buffer, Some(2), b"abcdefghijklmnop");
    let found = map.prev(&rt, b"b", &mut buffer);
    shows(&rt, found, &buffer, Some(2), b"abcdefghijklmnop");
    let found = map.prev(&rt, b"abcdefgh", &mut buffer);
    shows(&rt, found, &buffer, Some(4), b"abcdefg");
    let found = map.prev(&rt, b"abcdefg", &mut buffer);
    shows(&rt, found, &buffer, None, b"");
    same(
        &rt,
        map.insert(&rt, rt.alloc(), b"b", Given::Nothing),
        Some(1),
    );
    Ok(())
}

#[test]
fn suffixes(rt: HostRuntime) -> Result<(), Fail> {
    let mut map = Held::new(rt.alloc());
    holds(
        &rt,
        map.insert(&rt, rt.alloc(), A, Given::Value(1)).is_none(),
    );
    holds(&rt, map.live_words() == 8);
    holds(
        &rt,
        map.insert(&rt, rt.alloc(), B, Given::Plus(2)).is_none(),
    );
    holds(&rt, map.live_words() == 20);
    map.write(&rt, A, 3);
    same(&rt, map.get(&rt, A), Some(3));
    same(&rt, map.get(&rt, B), Some(2));
    same(&rt, map.get(&rt, b"aaaaaaaa"), None);
    holds(&rt, map.delete(&rt, A));
    holds(&rt, map.live_words() == 12);
    holds(&rt, !map.delete(&rt, A));
    holds(&rt, map.delete(&rt, B));
    same(&rt, map.live_words(), 0);
    Ok(())
}

// Strings of one letter, of this many bytes.
fn of_length(letters: &[u8], n: usize) -> &[u8] {
    if n <= letters.len() {
        return letters.split_at(n).0;
    }
    letters
}

const LENGTHS: [usize; 7] = [0, 7, 8, 9, 15, 16, 1000];

#[test]
fn lengths(rt: HostRuntime) -> Result<(), Fail> {
    let letters = [b'z'; 1000];
    let mut map = Held::new(rt.alloc());
    for n in LENGTHS {
        let key = of_length(&letters, n);
        holds_at(
            &rt,
            map.insert(&rt, rt.alloc(), key, Given::Value(n as u64))
                .is_none(),
            n,
        );
    }
    let mut buffer = ArrayVec::new();
    for i in 0..6usize {
        let below = of_length(&letters, LENGTHS[i]);
        let above = of_length(&letters, LENGTHS[i + 1]);
        let found = map.next(&rt, below, &mut buffer);
        shows(&rt, found, &buffer, Some(LENGTHS[i + 1] as u64), above);
        let found = map.prev(&rt, above, &mut buffer);
        shows(&rt, found, &buffer, Some(LENGTHS[i] as u64), below);
    }
    for n in [1000, 16, 15, 9, 8, 7, 0usize] {
        let key = of_length(&letters, n);
        same_at(&rt, map.get(&rt, key), Some(n as u64), n);
        holds_at(&rt, map.delete(&rt, key), n);
        same_at(&rt, map.get(&rt, key), None, n);
    }
    same(&rt, map.live_words(), 0);
    Ok(())
}

#[test]
fn a_split_three_words_deep(rt: HostRuntime) -> Result<(), Fail> {
    let mut map = Held::new(rt.alloc());
    let one = b"aaaaaaaabbbbbbbbccccccccddddddddeeeeeeee";
    let two = b"aaaaaaaabbbbbbbbccccccccffffffffgggggggg";
    holds(
        &rt,
        map.insert(&rt, rt.alloc(), one, Given::Value(1)).is_none(),
    );
    holds(
        &rt,
        map.insert(&rt, rt.alloc(), two, Given::Value(2)).is_none(),
    );
    same(&rt, map.get(&rt, one), Some(1));
    same(&rt, map.get(&rt, two), Some(2));
    same(&rt, map.clear(), 2);
    same(&rt, map.live_words(), 0);
    Ok(())
}
