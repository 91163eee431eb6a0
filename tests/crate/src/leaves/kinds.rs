//! What no contract of a leaf states as a number: its kind and the words of its block at every
//! count. Each request for memory may be refused once.
use crate::checks::{holds, holds_at, same, same_at};
use crate::leaves::held::{Held, given};
use judy_leaf::{Put, Removed};
use judy_refs::Kind;
use std::alloc::Global;
use std::process::Abort;

/// The least size of a block that holds this many words.
fn size_for(words: u64) -> u64 {
    let sizes = [4, 8, 16, 32, 64, 128, 256];
    for size in sizes {
        if words <= size {
            return size;
        }
    }
    512
}

/// The words of a leaf with this many keys, of this kind.
fn words_of(values: bool, kind: Option<Kind>, population: u64) -> u64 {
    let used = match kind {
        Some(Kind::LinearLeaf) => 1u64.wrapping_add(population.wrapping_mul(if values {
            2
        } else {
            1
        })),
        Some(_) => 6u64.wrapping_add(if values { population } else { 0 }),
        None => return 0,
    };
    size_for(used)
}

/// Inserts an absent key. If memory is refused, nothing has changed, and a second try succeeds.
fn put(rt: &impl Abort, alloc: Global, leaf: &mut Held, key: u64, value: u64) {
    let words = leaf.words();
    let refusals = leaf.refusals();
    let population = leaf.population();
    let mut answer = leaf.insert(alloc, key, value);
    if answer == Put::NoMemory {
        same_at(rt, leaf.words(), words, "words after a refusal");
        same(rt, leaf.refusals(), refusals.saturating_add(1));
        same(rt, leaf.population(), population);
        same(rt, leaf.get(key), None);
        answer = leaf.insert(alloc, key, value);
    }
    holds_at(rt, matches!(answer, Put::Done(_)), ("insert", key));
}

/// The leaf has this many keys, this kind, and a block of exactly the size for them.
fn check_block(rt: &impl Abort, leaf: &Held, values: bool, kind: Option<Kind>, population: u64) {
    same(rt, leaf.population(), population);
    same_at(rt, leaf.kind(), kind, ("with", population));
    same_at(
        rt,
        leaf.words(),
        words_of(values, kind, population),
        ("with", population),
    );
}

/// The key that comes or goes at this step, from 512 to 767.
fn key_of(step: u8) -> u64 {
    512u64.wrapping_add(u64::from(step.wrapping_mul(91).wrapping_add(17)))
}

/// A leaf gets the keys from 512 to 767. It has up to 31 of them as a linear leaf, and up to 255 as
/// a bitmap leaf.
fn fill(rt: &impl Abort, alloc: Global, leaf: &mut Held, values: bool) {
    for step in 0..256u16 {
        put(rt, alloc, leaf, key_of(step as u8), 77);
        let kind = if step < 31 {
            Kind::LinearLeaf
        } else if step < 255 {
            Kind::BitmapLeaf
        } else {
            Kind::FullLeaf
        };
        check_block(
            rt,
            leaf,
            values,
            Some(kind),
            u64::from(step).wrapping_add(1),
        );
    }
}

/// It loses them again, and stays a bitmap leaf down to 8 of them.
fn empty(rt: &impl Abort, leaf: &mut Held, values: bool) {
    for step in 0..256u16 {
        let population = 255 - u64::from(step);
        let answer = leaf.remove(key_of(step as u8));
        holds(
            rt,
            matches!(answer, Removed::Emptied(_)) == (population == 0),
        );
        let kind = if population > 7 {
            Some(Kind::BitmapLeaf)
        } else if population > 0 {
            Some(Kind::LinearLeaf)
        } else {
            None
        };
        check_block(rt, leaf, values, kind, population);
    }
}

#[test]
fn every_count_of_keys_has_its_kind_and_its_words(rt: HostRuntime) {
    for values in [false, true] {
        let mut leaf = Held::new(rt.alloc(), values);
        fill(&rt, rt.alloc(), &mut leaf, values);
        empty(&rt, &mut leaf, values);
    }
}

#[test]
fn a_full_leaf_without_one_of_its_keys(rt: HostRuntime) {
    let mut leaf = Held::new(rt.alloc(), false);
    for key in 0..256u64 {
        put(&rt, rt.alloc(), &mut leaf, key, 0);
    }
    same(&rt, leaf.kind(), Some(Kind::FullLeaf));
    same(&rt, leaf.first_empty(0), Some(256));
    holds(&rt, leaf.insert(rt.alloc(), 256, 0) == Put::Split);
    holds(&rt, matches!(leaf.remove(128), Removed::Left(_, 0)));
    same(&rt, leaf.kind(), Some(Kind::BitmapLeaf));
    same(&rt, leaf.first_empty(0), Some(128));
    same(&rt, leaf.population(), 255);
    same(&rt, leaf.words(), 8);
}

/// A leaf gets 31 keys, each 1000 above the one before.
fn fill_apart(rt: &impl Abort, alloc: Global, leaf: &mut Held) {
    for i in 0..31u64 {
        put(rt, alloc, leaf, i * 1000, i);
    }
}

#[test]
fn thirty_one_keys_that_stand_apart(rt: HostRuntime) {
    for values in [false, true] {
        let mut leaf = Held::new(rt.alloc(), values);
        fill_apart(&rt, rt.alloc(), &mut leaf);
        holds(&rt, leaf.insert(rt.alloc(), 31000, 0) == Put::Split);
        holds(
            &rt,
            leaf.insert(rt.alloc(), 30000, 0) == Put::Present(given(values, 30)),
        );
        same(&rt, leaf.get(31000), None);
        same(&rt, leaf.first_empty(0), Some(1));
        holds(
            &rt,
            leaf.last_entry(29999) == Some((29000, given(values, 29))),
        );
    }
}
