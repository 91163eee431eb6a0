//! Byte maps by hand under three hashes. Each request for memory may be refused once.

use crate::checks::{holds, holds_at, same, same_at};
use judy_arena::{Arena, NoMemory};
use judy_bytes::{JudyHS, KeyHash, OrderHash, Sha256Hash};
use judy_model::{Given, Listing, Reply, ReplyRoom, Text};
use std::alloc::Global;
use std::process::Abort;
use std::test::Fail;

// Every key has the word 0.
#[derive(Clone, Copy)]
struct NoHash;

impl KeyHash for NoHash {
    ghost hashed = { ? };

    fn word(&self, _key: &[u8]) -> u64 {
        0
    }
}

// Its walks are in the order of its own words.
impl OrderHash for NoHash {
    ghost ordered = { ? };
}

// The word of a key is its last byte, or 0 for the empty key.
#[derive(Clone, Copy)]
struct LastByte;

impl KeyHash for LastByte {
    ghost hashed = { ? };

    fn word(&self, key: &[u8]) -> u64 {
        if key.len() == 0 {
            return 0;
        }
        u64::from(key[key.len() - 1])
    }
}

// Its walks are in the order of its own words.
impl OrderHash for LastByte {
    ghost ordered = { ? };
}

// Inserts a key, and returns its value before. If memory is refused, nothing has changed, and a
// second try succeeds.
fn put<H: KeyHash>(
    rt: &impl Abort,
    alloc: Global,
    arena: &mut Arena,
    map: &mut JudyHS<H>,
    key: &[u8],
    given: Given,
) -> Result<Option<u64>, NoMemory> {
    let words = arena.live_words();
    let refusals = arena.refusals();
    let reference = map.reference();
    if let Ok(answer) = map.insert(alloc, arena, key, given) {
        return Ok(answer.before);
    }
    same_at(rt, arena.live_words(), words, "words after a refusal");
    same(rt, arena.refusals(), refusals.saturating_add(1));
    holds_at(
        rt,
        map.reference() == reference,
        "the reference after a refusal",
    );
    same_at(rt, map.get(arena, key), None, "a refused key is there");
    let answer = map.insert(alloc, arena, key, given)?;
    Ok(answer.before)
}

// Inserts 1,000 keys of 4 bytes, writes other values, and removes the keys in another order.
fn thousand<H: KeyHash>(rt: &impl Abort, alloc: Global, hash: H) -> Result<(), NoMemory> {
    let mut arena = Arena::new(alloc);
    let mut map = JudyHS::new(hash);
    for i in 0..1000u32 {
        let found = put(
            rt,
            alloc,
            &mut arena,
            &mut map,
            &i.to_be_bytes(),
            Given::Nothing,
        )?;
        same_at(rt, found, None, ("insert", i));
    }
    for i in 0..1000u32 {
        let found = put(
            rt,
            alloc,
            &mut arena,
            &mut map,
            &i.to_be_bytes(),
            Given::Value(u64::from(i)),
        )?;
        same_at(rt, found, Some(0), ("insert", i, "again"));
        let key = i.to_be_bytes();
        let found = put(rt, alloc, &mut arena, &mut map, &key, Given::Plus(7))?;
        same_at(rt, found, Some(u64::from(i)), ("add to", i));
    }
    for i in 0..1000u32 {
        let key = (i * 7 % 1000).to_be_bytes();
        same_at(
            rt,
            map.get(&arena, &key),
            Some(u64::from(i * 7 % 1000) + 7),
            ("get before delete", i),
        );
        holds_at(rt, map.delete(&mut arena, &key), ("delete", i));
        holds_at(rt, !map.delete(&mut arena, &key), ("delete", i, "twice"));
        same_at(rt, map.get(&arena, &key), None, ("get after delete", i));
    }
    same(rt, arena.live_words(), 0);
    same(rt, map.clear(&mut arena), 0);
    Ok(())
}

#[test]
fn a_thousand_keys_by_digest(rt: HostRuntime) -> Result<(), Fail> {
    thousand(&rt, rt.alloc(), Sha256Hash)?;
    Ok(())
}

#[test]
fn a_thousand_keys_by_last_byte(rt: HostRuntime) -> Result<(), Fail> {
    thousand(&rt, rt.alloc(), LastByte)?;
    Ok(())
}

#[test]
fn a_thousand_keys_in_one_chain(rt: HostRuntime) -> Result<(), Fail> {
    thousand(&rt, rt.alloc(), NoHash)?;
    Ok(())
}

// The empty key, and keys of bytes 0.
fn row<H: KeyHash>(rt: &impl Abort, alloc: Global, hash: H) -> Result<(), NoMemory> {
    let mut arena = Arena::new(alloc);
    let mut map = JudyHS::new(hash);
    let empty: [u8; 0] = [];
    same(
        rt,
        put(rt, alloc, &mut arena, &mut map, &empty, Given::Value(1))?,
        None,
    );
    same(
        rt,
        put(rt, alloc, &mut arena, &mut map, &[0], Given::Plus(2))?,
        None,
    );
    same(rt, map.get(&arena, &empty), Some(1));
    same(rt, map.get(&arena, &[0, 0]), None);
    holds(rt, map.delete(&mut arena, &empty));
    assert_eq!(rt; map.get(&arena, &[0]), Some(2));
    map.write(&mut arena, &[0], 3);
    same(rt, map.get(&arena, &[0]), Some(3));
    let back = JudyHS::from_reference(hash, map.reference());
    same(rt, back.get(&arena, &[0]), Some(3));
    same(rt, map.clear(&mut arena), 1);
    same(rt, arena.live_words(), 0);
    Ok(())
}

#[test]
fn empty_and_zero_keys(rt: HostRuntime) -> Result<(), Fail> {
    row(&rt, rt.alloc(), Sha256Hash)?;
    row(&rt, rt.alloc(), NoHash)?;
    row(&rt, rt.alloc(), LastByte)?;
    Ok(())
}

// The digest of `abc` is an example of FIPS 180-4.
#[test]
fn the_word_of_abc(rt: HostRuntime) -> Result<(), Fail> {
    same(&rt, Sha256Hash.word(b"abc"), 0xba78_16bf_8f01_cfea);
    Ok(())
}

// Two long keys that differ in their last byte, in one chain.
#[test]
fn a_chain_of_two(rt: HostRuntime) -> Result<(), Fail> {
    let mut arena = Arena::new(rt.alloc());
    let mut map = JudyHS::new(NoHash);
    let one = [1; 1000];
    let mut two = [1; 1000];
    two[999] = 2;
    same(
        &rt,
        put(
            &rt,
            rt.alloc(),
            &mut arena,
            &mut map,
            &one,
            Given::Value(10),
        )?,
        None,
    );
    same(
        &rt,
        put(
            &rt,
            rt.alloc(),
            &mut arena,
            &mut map,
            &two,
            Given::Value(20),
        )?,
        None,
    );
    same(
        &rt,
        put(&rt, rt.alloc(), &mut arena, &mut map, &one, Given::Nothing)?,
        Some(10),
    );
    same(&rt, map.get(&arena, &two), Some(20));
    same(&rt, map.get(&arena, &one[..992]), None);
    holds(&rt, map.delete(&mut arena, &two));
    same(&rt, map.get(&arena, &one), Some(10));
    same(&rt, map.clear(&mut arena), 1);
    same(&rt, arena.live_words(), 0);
    Ok(())
}

// The 1,000 keys of 4 bytes, as numbers, each behind its word, in the order of walks.
fn in_order<H: KeyHash>(hash: H) -> [(u64, u32); 1000] {
    let mut order = [(0, 0); 1000];
    for i in 0..1000u32 {
        order[i as usize] = (hash.word(&i.to_be_bytes()), i);
    }
    order.sort_unstable();
    order
}

// How many of these keys are at or before a key in a walk.
fn place_behind<H: KeyHash>(order: &[(u64, u32)], hash: H, key: &[u8]) -> usize {
    let word = hash.word(key);
    let mut place = 0;
    while place < order.len() {
        let (other, number) = order[place];
        let bytes = number.to_be_bytes();
        if other > word || (other == word && bytes.as_slice() > key) {
            return place;
        }
        place += 1;
    }
    place
}

// Compares a reply with the list of the keys from a place on, at most so many and as many as fit. Returns how many.
fn page(
    rt: &impl Abort,
    order: &[(u64, u32)],
    place: usize,
    most: u16,
    shown: &Reply<'_>,
) -> usize {
    let mut listing = Listing::new();
    let mut count = 0;
    for (_, number) in &order[place..] {
        if count == most || !listing.add_key(&number.to_be_bytes(), u64::from(*number) * 3) {
            break;
        }
        count += 1;
    }
    holds_at(
        rt,
        *shown == Reply::Entries(count, listing.text()),
        ("page", place),
    );
    usize::from(count)
}

// Walks over 1,000 keys, a page after another, and then on from keys that are absent.
fn walks<H: OrderHash>(rt: &impl Abort, alloc: Global, hash: H, most: u16) -> Result<(), NoMemory> {
    let mut arena = Arena::new(alloc);
    let mut map = JudyHS::new(hash);
    let mut room = ReplyRoom::new();
    page(rt, &[], 0, most, &map.walk(&arena, most, &mut room));
    for i in 0..1000u32 {
        let key = (i * 7 % 1000).to_be_bytes();
        let value = u64::from(i * 7 % 1000) * 3;
        put(rt, alloc, &mut arena, &mut map, &key, Given::Value(value))?;
    }
    let order = in_order(hash);
    let mut place = page(rt, &order, 0, most, &map.walk(&arena, most, &mut room));
    while place < 1000 {
        let key = order[place - 1].1.to_be_bytes();
        let shown = map.walk_on(&arena, &key, most, &mut room);
        let count = page(rt, &order, place, most, &shown);
        holds_at(rt, count > 0, ("page", place, "is empty"));
        place += count;
    }
    for i in 0..100u32 {
        let number = (i * 40_000_000).to_be_bytes();
        for len in 0..4 {
            let key = &number[..len];
            let shown = map.walk_on(&arena, key, most, &mut room);
            page(rt, &order, place_behind(&order, hash, key), most, &shown);
        }
    }
    same(rt, map.clear(&mut arena), 1000);
    Ok(())
}

#[test]
fn walks_by_digest(rt: HostRuntime) -> Result<(), Fail> {
    walks(&rt, rt.alloc(), Sha256Hash, 7)?;
    walks(&rt, rt.alloc(), Sha256Hash, 65_535)?;
    Ok(())
}

#[test]
fn walks_by_last_byte(rt: HostRuntime) -> Result<(), Fail> {
    walks(&rt, rt.alloc(), LastByte, 1)?;
    walks(&rt, rt.alloc(), LastByte, 65_535)?;
    Ok(())
}

#[test]
fn walks_in_one_chain(rt: HostRuntime) -> Result<(), Fail> {
    walks(&rt, rt.alloc(), NoHash, 50)?;
    Ok(())
}

// Digests of these keys, as published, begin with 3e, ba, ca and e3.
#[test]
fn a_walk_by_hand(rt: HostRuntime) -> Result<(), Fail> {
    let mut arena = Arena::new(rt.alloc());
    let mut map = JudyHS::new(Sha256Hash);
    let mut room = ReplyRoom::new();
    let keys: [&[u8]; 4] = [b"", b"a", b"abc", b"b"];
    for i in 0..4 {
        let value = Given::Value(i as u64);
        put(&rt, rt.alloc(), &mut arena, &mut map, keys[i], value)?;
    }
    let wanted = Reply::Entries(4, Text::of(b" 3 x62 2 x616263 1 x61 0 x"));
    holds(&rt, map.walk(&arena, 9, &mut room) == wanted);
    let wanted = Reply::Entries(1, Text::of(b" 1 x61"));
    holds(&rt, map.walk_on(&arena, b"abc", 1, &mut room) == wanted);
    let wanted = Reply::Entries(0, Text::of(b""));
    holds(&rt, map.walk_on(&arena, b"", 9, &mut room) == wanted);
    holds(&rt, map.walk(&arena, 0, &mut room) == wanted);
    same(&rt, map.clear(&mut arena), 4);
    Ok(())
}
