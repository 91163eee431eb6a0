//! Arrays that grow and shrink across each change of kind. The words of their blocks are checked,
//! and a walk compares them with a rising list after each step, by First and Next.
use crate::checks::{holds_at, same, same_at};
use crate::words::arrays::{Arrays, Which};
use crate::words::asked::{long, one};
use judy_arena::NoMemory;
use judy_model::{Given, LongCall, OneCall, Reply};
use std::alloc::Global;
use std::process::Abort;
use std::test::Fail;

const MAX: u64 = 18_446_744_073_709_551_615;

/// Checks that the first set has these indexes.
fn walk_set(
    rt: &impl Abort,
    alloc: Global,
    arrays: &mut Arrays,
    keys: &[u64],
) -> Result<(), NoMemory> {
    let mut call = OneCall::First(0);
    for key in keys {
        one(rt, alloc, arrays, call, Reply::Index(*key))?;
        call = OneCall::Next(*key);
    }
    one(rt, alloc, arrays, call, Reply::Int(false))
}

/// The value of an index in these tests.
fn value_of(key: u64) -> u64 {
    key ^ 165
}

/// Checks that the first map has these indexes, each with its value.
fn walk_map(
    rt: &impl Abort,
    alloc: Global,
    arrays: &mut Arrays,
    keys: &[u64],
) -> Result<(), NoMemory> {
    let mut call = LongCall::First(0);
    for key in keys {
        long(
            rt,
            alloc,
            arrays,
            call,
            Reply::ValueAt(value_of(*key), *key),
        )?;
        call = LongCall::Next(*key);
    }
    long(rt, alloc, arrays, call, Reply::Null)
}

/// Inserts an index into the first set and the list.
fn set(
    rt: &impl Abort,
    alloc: Global,
    arrays: &mut Arrays,
    keys: &mut Vec<u64>,
    key: u64,
) -> Result<(), Fail> {
    one(rt, alloc, arrays, OneCall::Set(key), Reply::Int(true))?;
    keys.push(key)?;
    keys.sort()?;
    Ok(walk_set(rt, alloc, arrays, keys)?)
}

/// Removes an index from the first set and the list.
fn unset(
    rt: &impl Abort,
    alloc: Global,
    arrays: &mut Arrays,
    keys: &mut Vec<u64>,
    key: u64,
) -> Result<(), Fail> {
    one(rt, alloc, arrays, OneCall::Unset(key), Reply::Int(true))?;
    keys.retain(|other| *other != key);
    Ok(walk_set(rt, alloc, arrays, keys)?)
}

/// Inserts an index into the first map and the list.
fn insert(
    rt: &impl Abort,
    alloc: Global,
    arrays: &mut Arrays,
    keys: &mut Vec<u64>,
    key: u64,
) -> Result<(), Fail> {
    let call = LongCall::Insert(key, Given::Value(value_of(key)));
    long(rt, alloc, arrays, call, Reply::Value(0))?;
    keys.push(key)?;
    keys.sort()?;
    Ok(walk_map(rt, alloc, arrays, keys)?)
}

/// Removes an index from the first map and the list.
fn delete(
    rt: &impl Abort,
    alloc: Global,
    arrays: &mut Arrays,
    keys: &mut Vec<u64>,
    key: u64,
) -> Result<(), Fail> {
    long(rt, alloc, arrays, LongCall::Delete(key), Reply::Int(true))?;
    keys.retain(|other| *other != key);
    Ok(walk_map(rt, alloc, arrays, keys)?)
}

/// How many words the first map has with this many consecutive keys, after it grew from none.
const RISING: [(u64, u64); 14] = [
    (1, 4),
    (7, 16),
    (8, 32),
    (15, 32),
    (16, 64),
    (31, 64),
    (32, 64),
    (58, 64),
    (59, 128),
    (122, 128),
    (123, 256),
    (250, 256),
    (251, 512),
    (256, 512),
];

/// How many words it has with this many, after it shrank from 256.
const FALLING: [(u64, u64); 14] = [
    (255, 512),
    (251, 512),
    (250, 256),
    (122, 128),
    (58, 64),
    (27, 64),
    (26, 32),
    (11, 32),
    (10, 16),
    (8, 16),
    (7, 16),
    (3, 8),
    (1, 4),
    (0, 0),
];

/// The words in the row for this count, if there is one.
fn told(rows: &[(u64, u64)], count: u64) -> Option<u64> {
    rows.iter().find(|row| row.0 == count).map(|row| row.1)
}

#[test]
fn a_map_of_0_to_256_keys_and_back(rt: HostRuntime) -> Result<(), Fail> {
    let alloc = rt.alloc();
    let mut arrays = Arrays::new(alloc);
    let mut keys: Vec<u64> = Vec::new(alloc);
    for key in 0..256u64 {
        insert(&rt, alloc, &mut arrays, &mut keys, key)?;
        if let Some(words) = told(&RISING, key.wrapping_add(1)) {
            same_at(&rt, arrays.live_words(), words, ("with", key));
        }
    }
    for key in (0..256u64).rev() {
        delete(&rt, alloc, &mut arrays, &mut keys, key)?;
        if let Some(words) = told(&FALLING, key) {
            same_at(&rt, arrays.live_words(), words, ("without", key));
        }
    }
    same(&rt, arrays.live_words(), 0);
    Ok(())
}

#[test]
fn a_branch_of_two_to_nine_leaves(rt: HostRuntime) -> Result<(), Fail> {
    let alloc = rt.alloc();
    let mut arrays = Arrays::new(alloc);
    let mut keys: Vec<u64> = Vec::new(alloc);
    for key in 0..16u64 {
        set(&rt, alloc, &mut arrays, &mut keys, key)?;
        set(&rt, alloc, &mut arrays, &mut keys, key.wrapping_add(256))?;
    }
    same(&rt, arrays.live_words(), 72);
    for byte in 2..9u64 {
        set(&rt, alloc, &mut arrays, &mut keys, byte.wrapping_mul(256))?;
    }
    same(&rt, arrays.live_words(), 108);
    unset(&rt, alloc, &mut arrays, &mut keys, 2048)?;
    same(&rt, arrays.live_words(), 104);
    for byte in 2..8u64 {
        unset(&rt, alloc, &mut arrays, &mut keys, byte.wrapping_mul(256))?;
    }
    for key in 256..272u64 {
        unset(&rt, alloc, &mut arrays, &mut keys, key)?;
    }
    same(&rt, arrays.live_words(), 32);
    Ok(())
}

#[test]
fn a_branch_above_a_leaf(rt: HostRuntime) -> Result<(), Fail> {
    const HIGH: u64 = 9_223_372_036_854_775_808;
    let alloc = rt.alloc();
    let mut arrays = Arrays::new(alloc);
    let mut keys: Vec<u64> = Vec::new(alloc);
    for key in 0..32u64 {
        set(&rt, alloc, &mut arrays, &mut keys, key)?;
    }
    same(&rt, arrays.live_words(), 8);
    set(&rt, alloc, &mut arrays, &mut keys, HIGH)?;
    same(&rt, arrays.live_words(), 20);
    for (call, reply) in [
        (OneCall::FirstEmpty(0), Reply::Index(32)),
        (OneCall::Next(31), Reply::Index(HIGH)),
        (OneCall::Prev(HIGH), Reply::Index(31)),
        (OneCall::LastEmpty(MAX), Reply::Index(MAX)),
        (OneCall::PrevEmpty(0), Reply::Int(false)),
        (OneCall::NextEmpty(MAX), Reply::Int(false)),
    ] {
        one(&rt, alloc, &mut arrays, call, reply)?;
    }
    unset(&rt, alloc, &mut arrays, &mut keys, HIGH)?;
    same(&rt, arrays.live_words(), 8);
    Ok(())
}

#[test]
fn a_set_at_the_top_taken_from_both_ends(rt: HostRuntime) -> Result<(), Fail> {
    let alloc = rt.alloc();
    let mut arrays = Arrays::new(alloc);
    let mut keys: Vec<u64> = Vec::new(alloc);
    for key in MAX - 255..=MAX {
        set(&rt, alloc, &mut arrays, &mut keys, key)?;
    }
    one(
        &rt,
        alloc,
        &mut arrays,
        OneCall::Count(0, MAX),
        Reply::Count(256),
    )?;
    for (call, reply) in [
        (OneCall::FirstEmpty(MAX - 255), Reply::Int(false)),
        (OneCall::NextEmpty(MAX - 256), Reply::Int(false)),
        (OneCall::LastEmpty(MAX), Reply::Index(MAX - 256)),
    ] {
        one(&rt, alloc, &mut arrays, call, reply)?;
    }
    same(&rt, arrays.live_words(), 8);
    for step in 0..128u64 {
        unset(&rt, alloc, &mut arrays, &mut keys, MAX.wrapping_sub(step))?;
        let call = OneCall::LastEmpty(MAX);
        one(&rt, alloc, &mut arrays, call, Reply::Index(MAX))?;
        unset(
            &rt,
            alloc,
            &mut arrays,
            &mut keys,
            (MAX - 255).wrapping_add(step),
        )?;
    }
    same(&rt, arrays.live_words(), 0);
    Ok(())
}

#[test]
fn shared_bytes(rt: HostRuntime) -> Result<(), Fail> {
    let alloc = rt.alloc();
    let mut arrays = Arrays::new(alloc);
    for key in 4096..4128u64 {
        one(&rt, alloc, &mut arrays, OneCall::Set(key), Reply::Int(true))?;
    }
    for (call, reply) in [
        (OneCall::Test(31), Reply::Int(false)),
        (OneCall::First(0), Reply::Index(4096)),
        (OneCall::Count(0, 4111), Reply::Count(16)),
        (OneCall::Last(4095), Reply::Int(false)),
    ] {
        one(&rt, alloc, &mut arrays, call, reply)?;
    }
    Ok(())
}

#[test]
fn full_leaf(rt: HostRuntime) -> Result<(), Fail> {
    let alloc = rt.alloc();
    let mut arrays = Arrays::new(alloc);
    for key in 0..256u64 {
        one(&rt, alloc, &mut arrays, OneCall::Set(key), Reply::Int(true))?;
    }
    for (call, reply) in [
        (OneCall::FirstEmpty(0), Reply::Index(256)),
        (OneCall::Unset(128), Reply::Int(true)),
        (OneCall::FirstEmpty(0), Reply::Index(128)),
        (OneCall::Count(0, 255), Reply::Count(255)),
    ] {
        one(&rt, alloc, &mut arrays, call, reply)?;
    }
    same(&rt, arrays.live_words(), 8);
    Ok(())
}

#[test]
fn wide_branch(rt: HostRuntime) -> Result<(), Fail> {
    let alloc = rt.alloc();
    let mut arrays = Arrays::new(alloc);
    for i in 0..129u64 {
        let call = OneCall::Set(i.wrapping_mul(256));
        one(&rt, alloc, &mut arrays, call, Reply::Int(true))?;
    }
    for (call, reply) in [
        (OneCall::Count(0, MAX), Reply::Count(129)),
        (OneCall::ByCount(129), Reply::Index(32_768)),
        (OneCall::Prev(32_768), Reply::Index(32_512)),
        (OneCall::FirstEmpty(0), Reply::Index(1)),
    ] {
        one(&rt, alloc, &mut arrays, call, reply)?;
    }
    same(&rt, arrays.live_words(), 1028);
    for i in 0..128u64 {
        let call = OneCall::Unset(i.wrapping_mul(256));
        one(&rt, alloc, &mut arrays, call, Reply::Int(true))?;
        let left = Reply::Count(128u64.wrapping_sub(i));
        one(&rt, alloc, &mut arrays, OneCall::Count(0, MAX), left)?;
    }
    one(
        &rt,
        alloc,
        &mut arrays,
        OneCall::First(0),
        Reply::Index(32_768),
    )?;
    same(&rt, arrays.live_words(), 4);
    Ok(())
}

/// The k-th of the scattered keys.
fn scattered(k: u64) -> u64 {
    k.wrapping_mul(2_654_435_761)
}

/// Checks that the arrays have few words for this many keys.
fn has_space(rt: &impl Abort, arrays: &Arrays, count: u64) {
    let bound = count.wrapping_mul(12).saturating_sub(8);
    holds_at(rt, arrays.live_words() <= bound, (count, "keys"));
}

#[test]
fn scattered_keys_of_a_set_have_few_words(rt: HostRuntime) -> Result<(), Fail> {
    let alloc = rt.alloc();
    let mut arrays = Arrays::new(alloc);
    for k in 1..=1_000u64 {
        one(
            &rt,
            alloc,
            &mut arrays,
            OneCall::Set(scattered(k)),
            Reply::Int(true),
        )?;
        has_space(&rt, &arrays, k);
    }
    for k in 1..=1_000u64 {
        one(
            &rt,
            alloc,
            &mut arrays,
            OneCall::Unset(scattered(k)),
            Reply::Int(true),
        )?;
        has_space(&rt, &arrays, 1_000u64.wrapping_sub(k));
    }
    Ok(())
}

#[test]
fn scattered_keys_of_a_map_have_few_words(rt: HostRuntime) -> Result<(), Fail> {
    let alloc = rt.alloc();
    let mut arrays = Arrays::new(alloc);
    for k in 1..=1_000u64 {
        let call = LongCall::Insert(scattered(k), Given::Value(k));
        long(&rt, alloc, &mut arrays, call, Reply::Value(0))?;
        has_space(&rt, &arrays, k);
    }
    for k in 1..=1_000u64 {
        long(
            &rt,
            alloc,
            &mut arrays,
            LongCall::Delete(scattered(k)),
            Reply::Int(true),
        )?;
        has_space(&rt, &arrays, 1_000u64.wrapping_sub(k));
    }
    Ok(())
}
