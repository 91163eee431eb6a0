//! Sets of bytes: each function at the first and last bits of words, on an empty, a full and a
//! mixed set, compared with values found by hand.
use crate::checks::{holds, holds_at, same, same_at};
use judy_bitmap::Bits256;
use std::process::Abort;

const PLACES: [u8; 6] = [0, 63, 64, 127, 128, 255];

// The words of the set of one byte, for each of the six places.
const ALONE: [[u64; 4]; 6] = [
    [1, 0, 0, 0],
    [0x8000_0000_0000_0000, 0, 0, 0],
    [0, 1, 0, 0],
    [0, 0x8000_0000_0000_0000, 0, 0],
    [0, 0, 1, 0],
    [0, 0, 0, 0x8000_0000_0000_0000],
];

// The words of the set of all bytes but one, for each of them.
const BUT_ONE: [[u64; 4]; 6] = [
    [0xffff_ffff_ffff_fffe, u64::MAX, u64::MAX, u64::MAX],
    [0x7fff_ffff_ffff_ffff, u64::MAX, u64::MAX, u64::MAX],
    [u64::MAX, 0xffff_ffff_ffff_fffe, u64::MAX, u64::MAX],
    [u64::MAX, 0x7fff_ffff_ffff_ffff, u64::MAX, u64::MAX],
    [u64::MAX, u64::MAX, 0xffff_ffff_ffff_fffe, u64::MAX],
    [u64::MAX, u64::MAX, u64::MAX, 0x7fff_ffff_ffff_ffff],
];

// The words of the set of the six places.
const EDGES: [u64; 4] = [
    0x8000_0000_0000_0001,
    0x8000_0000_0000_0001,
    1,
    0x8000_0000_0000_0000,
];

// The four searches from a byte: for a byte of the set upwards, for one that is not upwards, and both
// downwards.
type Found = [Option<u8>; 4];

fn found(set: &Bits256, byte: u8) -> Found {
    [
        set.next_set(byte),
        set.next_clear(byte),
        set.prev_set(byte),
        set.prev_clear(byte),
    ]
}

// Checks whether a byte is in the set, and how many are below it.
fn has(rt: &impl Abort, set: &Bits256, byte: u8, is_there: bool, rank: u32) {
    same_at(rt, set.has(byte), is_there, ("has", byte));
    same_at(rt, set.rank(byte), rank, ("rank of", byte));
}

#[test]
fn an_empty_set(rt: HostRuntime) {
    let set = Bits256::new();
    same(&rt, *set.words(), [0; 4]);
    holds(&rt, set.is_empty());
    same(&rt, set.len(), 0);
    same(&rt, set.select(0), None);
    for byte in &PLACES {
        has(&rt, &set, *byte, false, 0);
        let want = [None, Some(*byte), None, Some(*byte)];
        holds_at(&rt, found(&set, *byte) == want, ("searches from", byte));
    }
}

#[test]
fn a_full_set(rt: HostRuntime) {
    let set = Bits256::from_words(&[u64::MAX; 4]);
    same(&rt, *set.words(), [u64::MAX; 4]);
    holds(&rt, !set.is_empty());
    same(&rt, set.len(), 256);
    same(&rt, set.select(256), None);
    same(&rt, set.select(u32::MAX), None);
    for byte in &PLACES {
        let rank = u32::from(*byte);
        has(&rt, &set, *byte, true, rank);
        same(&rt, set.select(rank), Some(*byte));
        let want = [Some(*byte), None, Some(*byte), None];
        holds_at(&rt, found(&set, *byte) == want, ("searches from", byte));
    }
}

// Sets a byte of the empty set twice, and clears it twice.
fn set_alone(rt: &impl Abort, byte: u8, alone: &[u64; 4]) {
    let mut set = Bits256::new();
    set.set(byte);
    set.set(byte);
    same(rt, set.words(), alone);
    set.clear(byte);
    set.clear(byte);
    same(rt, *set.words(), [0; 4]);
}

// Clears a byte of the full set, and sets it again.
fn clear_alone(rt: &impl Abort, byte: u8, but_one: &[u64; 4]) {
    let mut set = Bits256::from_words(&[u64::MAX; 4]);
    set.clear(byte);
    same(rt, set.words(), but_one);
    set.set(byte);
    same(rt, *set.words(), [u64::MAX; 4]);
}

#[test]
fn set_and_clear_write_one_bit(rt: HostRuntime) {
    for (byte, alone) in PLACES.iter().zip(&ALONE) {
        set_alone(&rt, *byte, alone);
    }
    for (byte, but_one) in PLACES.iter().zip(&BUT_ONE) {
        clear_alone(&rt, *byte, but_one);
    }
    let mut set = Bits256::new();
    for byte in [255, 0, 128, 63, 127, 64] {
        set.set(byte);
    }
    same(&rt, *set.words(), EDGES);
}

// A byte, and how many bytes of a set are below it.
type Rank = (u8, u32);

const OF_EDGES: [Rank; 6] = [(0, 0), (63, 1), (64, 2), (127, 3), (128, 4), (255, 5)];

const BESIDE_EDGES: [Rank; 6] = [(1, 1), (62, 1), (65, 3), (126, 3), (129, 5), (254, 5)];

#[test]
fn rank_and_select_of_the_edges(rt: HostRuntime) {
    let set = Bits256::from_words(&EDGES);
    same(&rt, set.len(), 6);
    holds(&rt, !set.is_empty());
    for (byte, rank) in &OF_EDGES {
        has(&rt, &set, *byte, true, *rank);
        same(&rt, set.select(*rank), Some(*byte));
    }
    for (byte, rank) in &BESIDE_EDGES {
        has(&rt, &set, *byte, false, *rank);
    }
    same(&rt, set.select(6), None);
    same(&rt, set.select(u32::MAX), None);
}

const INSIDE: [Rank; 5] = [(70, 0), (71, 1), (75, 2), (100, 3), (126, 4)];

#[test]
fn members_inside_a_word(rt: HostRuntime) {
    // Bytes 70, 71, 75, 100 and 126.
    let set = Bits256::from_words(&[0, 0x4000_0010_0000_08c0, 0, 0]);
    for (byte, rank) in &INSIDE {
        same(&rt, set.select(*rank), Some(*byte));
        same(&rt, set.rank(*byte), *rank);
    }
    same(&rt, set.select(5), None);
    same(&rt, set.rank(255), 5);
    same(&rt, set.next_set(72), Some(75));
    same(&rt, set.prev_set(99), Some(75));
    same(&rt, set.next_clear(70), Some(72));
    same(&rt, set.prev_clear(71), Some(69));
}

const SEARCHES: [(u8, Found); 12] = [
    (0, [Some(0), Some(1), Some(0), None]),
    (1, [Some(63), Some(1), Some(0), Some(1)]),
    (62, [Some(63), Some(62), Some(0), Some(62)]),
    (63, [Some(63), Some(65), Some(63), Some(62)]),
    (64, [Some(64), Some(65), Some(64), Some(62)]),
    (65, [Some(127), Some(65), Some(64), Some(65)]),
    (126, [Some(127), Some(126), Some(64), Some(126)]),
    (127, [Some(127), Some(129), Some(127), Some(126)]),
    (128, [Some(128), Some(129), Some(128), Some(126)]),
    (129, [Some(255), Some(129), Some(128), Some(129)]),
    (254, [Some(255), Some(254), Some(128), Some(254)]),
    (255, [Some(255), None, Some(255), Some(254)]),
];

#[test]
fn searches_of_the_edges(rt: HostRuntime) {
    let set = Bits256::from_words(&EDGES);
    for (byte, want) in &SEARCHES {
        holds_at(&rt, found(&set, *byte) == *want, ("searches from", byte));
    }
}

#[test]
fn searches_cross_empty_and_full_words(rt: HostRuntime) {
    let set = Bits256::from_words(&[1, 0, 0, 0x8000_0000_0000_0000]);
    same(&rt, set.next_set(1), Some(255));
    same(&rt, set.prev_set(254), Some(0));
    let set = Bits256::from_words(&[u64::MAX - 1, u64::MAX, u64::MAX, u64::MAX >> 1]);
    same(&rt, set.next_clear(1), Some(255));
    same(&rt, set.prev_clear(254), Some(0));
}
