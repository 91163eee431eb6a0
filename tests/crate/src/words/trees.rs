//! Arrays that grow and shrink across each change of kind, with the words of their blocks. Each
//! request for memory may be refused once.
mod held;
mod row;

use crate::checks::{holds, holds_at, same, same_at};
use held::{HeldMap, HeldSet};
use std::alloc::Global;
use std::process::Abort;
use std::test::Fail;

/// Inserts a key into a set. If memory is refused, nothing has changed, and a second try succeeds.
fn put(rt: &impl Abort, alloc: Global, set: &mut HeldSet, key: u64) -> bool {
    let words = set.words();
    let refusals = set.refusals();
    let population = set.population();
    let mut answer = set.insert(alloc, key);
    if answer.is_err() {
        same_at(rt, set.words(), words, "words after a refusal");
        same(rt, set.refusals(), refusals.saturating_add(1));
        same(rt, set.population(), population);
        same(rt, set.get(key), None);
        answer = set.insert(alloc, key);
    }
    answer == Ok(None)
}

/// Inserts a key with a value into a map, in the same way.
fn put_value(rt: &impl Abort, alloc: Global, map: &mut HeldMap, key: u64, value: u64) -> bool {
    let words = map.words();
    let refusals = map.refusals();
    let population = map.population();
    let mut answer = map.insert(alloc, key, value);
    if answer.is_err() {
        same_at(rt, map.words(), words, "words after a refusal");
        same(rt, map.refusals(), refusals.saturating_add(1));
        same(rt, map.population(), population);
        same(rt, map.get(key), None);
        answer = map.insert(alloc, key, value);
    }
    answer == Ok(None)
}

#[test]
fn a_map_by_hand(rt: HostRuntime) -> Result<(), Fail> {
    let mut map = HeldMap::new(rt.alloc());
    for (key, value) in [(7, 70), (3, 30), (u64::MAX, 5), (0, u64::MAX)] {
        holds(&rt, put_value(&rt, rt.alloc(), &mut map, key, value));
    }
    same(&rt, map.insert(rt.alloc(), 7, 71), Ok(Some(70)));
    map.write(7, 71);
    same(&rt, map.population(), 4);
    for (key, value) in [
        (0, Some(u64::MAX)),
        (1, None),
        (3, Some(30)),
        (7, Some(71)),
        (8, None),
        (u64::MAX, Some(5)),
    ] {
        same_at(&rt, map.get(key), value, ("get", key));
    }
    for (key, value) in [(3, Some(30)), (3, None), (4, None), (0, Some(u64::MAX))] {
        same_at(&rt, map.remove(key), value, ("remove", key));
    }
    same(&rt, map.clear(), 2);
    same(&rt, map.clear(), 0);
    same(&rt, map.words(), 0);
    Ok(())
}

#[test]
fn a_map_of_one_leaf_grows_and_shrinks(rt: HostRuntime) -> Result<(), Fail> {
    let mut map = HeldMap::new(rt.alloc());
    let up = [
        (1, 4),
        (7, 16),
        (8, 32),
        (15, 32),
        (16, 64),
        (31, 64),
        (32, 64),
        (58, 64),
        (59, 128),
        (122, 128),
        (123, 256),
        (250, 256),
        (251, 512),
        (256, 512),
    ];
    let mut count = 0;
    for (wanted, words) in up {
        for _ in 0..256u64 {
            if count < wanted {
                holds(
                    &rt,
                    put_value(&rt, rt.alloc(), &mut map, count, count ^ 255),
                );
                count = count.wrapping_add(1);
            }
        }
        same_at(&rt, map.words(), words, (wanted, "keys"));
    }
    let down = [
        (255, 512),
        (251, 512),
        (250, 256),
        (122, 128),
        (58, 64),
        (27, 64),
        (26, 32),
        (11, 32),
        (10, 16),
        (8, 16),
        (7, 16),
        (3, 8),
        (1, 4),
        (0, 0),
    ];
    for (wanted, words) in down {
        for _ in 0..256u64 {
            if count > wanted {
                count = count.wrapping_sub(1);
                same(&rt, map.remove(count), Some(count ^ 255));
            }
        }
        same_at(&rt, map.words(), words, (wanted, "keys left"));
    }
    Ok(())
}

#[test]
fn a_branch_of_two_to_nine(rt: HostRuntime) -> Result<(), Fail> {
    let mut set = HeldSet::new(rt.alloc());
    for key in 0..16u64 {
        holds(&rt, put(&rt, rt.alloc(), &mut set, key));
        holds(&rt, put(&rt, rt.alloc(), &mut set, key.wrapping_add(256)));
    }
    same_at(&rt, set.words(), 72, "a linear branch of two");
    for byte in 2..9u64 {
        holds(&rt, put(&rt, rt.alloc(), &mut set, byte.wrapping_mul(256)));
    }
    same_at(&rt, set.words(), 108, "a bitmap branch of nine");
    same(&rt, set.remove(2048), Some(0));
    same_at(&rt, set.words(), 104, "a linear branch of eight");
    for byte in 2..8u64 {
        same(&rt, set.remove(byte.wrapping_mul(256)), Some(0));
    }
    for key in 256..272u64 {
        same(&rt, set.remove(key), Some(0));
    }
    same_at(&rt, set.words(), 32, "the leaf that is left");
    same(&rt, set.population(), 16);
    Ok(())
}

#[test]
fn a_branch_above_a_leaf_comes_and_goes(rt: HostRuntime) -> Result<(), Fail> {
    let mut set = HeldSet::new(rt.alloc());
    for key in 0..32u64 {
        holds(&rt, put(&rt, rt.alloc(), &mut set, key));
    }
    same_at(&rt, set.words(), 8, "a bitmap leaf");
    holds(&rt, put(&rt, rt.alloc(), &mut set, 1 << 63));
    same_at(&rt, set.words(), 20, "a branch of two leaves");
    same(&rt, set.get(31), Some(0));
    same(&rt, set.get((1 << 63) + 31), None);
    same(&rt, set.remove(1 << 63), Some(0));
    same(&rt, set.words(), 8);
    Ok(())
}

#[test]
fn shared_bytes_are_not_skipped_unseen(rt: HostRuntime) -> Result<(), Fail> {
    let mut set = HeldSet::new(rt.alloc());
    for key in 4096..4128u64 {
        holds(&rt, put(&rt, rt.alloc(), &mut set, key));
    }
    same(&rt, set.get(31), None);
    same(&rt, set.get(4127), Some(0));
    holds(&rt, put(&rt, rt.alloc(), &mut set, 31));
    holds(&rt, put(&rt, rt.alloc(), &mut set, 1 << 40));
    for key in [31, 4096, 4127, 1 << 40] {
        same_at(&rt, set.get(key), Some(0), ("get", key));
    }
    for key in [30, 32, 4095, 4128, (1 << 40) + 31, (1 << 32) + 4096] {
        same_at(&rt, set.get(key), None, ("get", key));
    }
    same(&rt, set.population(), 34);
    Ok(())
}

#[test]
fn a_full_leaf_and_the_top_of_the_range(rt: HostRuntime) -> Result<(), Fail> {
    let mut set = HeldSet::new(rt.alloc());
    for byte in 0..256u64 {
        holds(
            &rt,
            put(&rt, rt.alloc(), &mut set, u64::MAX.wrapping_sub(byte)),
        );
    }
    same(&rt, set.population(), 256);
    same(&rt, set.words(), 8);
    same(&rt, set.remove(u64::MAX - 128), Some(0));
    same(&rt, set.words(), 8);
    same(&rt, set.get(u64::MAX), Some(0));
    same(&rt, set.get(u64::MAX - 128), None);
    same(&rt, set.get(u64::MAX - 256), None);
    same(&rt, set.clear(), 255);
    same(&rt, set.words(), 0);
    Ok(())
}

#[test]
fn a_wide_branch(rt: HostRuntime) -> Result<(), Fail> {
    let mut set = HeldSet::new(rt.alloc());
    for byte in 0..129u64 {
        holds(&rt, put(&rt, rt.alloc(), &mut set, byte.wrapping_mul(256)));
    }
    same(&rt, set.population(), 129);
    same(&rt, set.words(), 1028);
    for byte in 0..128u64 {
        same(&rt, set.remove(byte.wrapping_mul(256)), Some(0));
        same(&rt, set.population(), 128u64.wrapping_sub(byte));
    }
    same(&rt, set.get(32768), Some(0));
    same(&rt, set.words(), 4);
    Ok(())
}

#[test]
fn a_split_into_many_leaves(rt: HostRuntime) -> Result<(), Fail> {
    let mut set = HeldSet::new(rt.alloc());
    for byte in 0..32u64 {
        holds(
            &rt,
            put(&rt, rt.alloc(), &mut set, byte.wrapping_mul(1 << 56)),
        );
    }
    same(&rt, set.words(), 64 + 32 * 4);
    for byte in 0..32u64 {
        same(&rt, set.get(byte.wrapping_mul(1 << 56)), Some(0));
        same(
            &rt,
            set.get(byte.wrapping_mul(1 << 56).wrapping_add(1)),
            None,
        );
    }
    same(&rt, set.clear(), 32);
    same(&rt, set.words(), 0);
    Ok(())
}

#[test]
fn scattered_keys_take_few_words(rt: HostRuntime) -> Result<(), Fail> {
    let mut set = HeldSet::new(rt.alloc());
    let mut map = HeldMap::new(rt.alloc());
    for count in 1..1001u64 {
        let key = count.wrapping_mul(2_654_435_761);
        holds(&rt, put(&rt, rt.alloc(), &mut set, key));
        holds(&rt, put_value(&rt, rt.alloc(), &mut map, key, count));
        let bound = count.wrapping_mul(12).wrapping_sub(8);
        holds_at(&rt, set.words() <= bound, (count, "keys of a set"));
        holds_at(&rt, map.words() <= bound, (count, "keys of a map"));
    }
    for count in 1..1001u64 {
        let key = count.wrapping_mul(2_654_435_761);
        same(&rt, set.remove(key), Some(0));
        same(&rt, map.remove(key), Some(count));
        let left = 1000u64.wrapping_sub(count);
        let bound = left.wrapping_mul(12).saturating_sub(8);
        holds_at(&rt, set.words() <= bound, (left, "keys left of a set"));
        holds_at(&rt, map.words() <= bound, (left, "keys left of a map"));
    }
    Ok(())
}
