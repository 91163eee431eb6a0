//! Every query compared with a list of keys, at 0, at the greatest word, and next to the first and
//! the last key. Each request for memory may be refused once.
use crate::checks::{holds_at, same, same_at};
use crate::words::held::Held;
use judy_arena::NoMemory;
use std::alloc::Global;
use std::process::Abort;
use std::test::Fail;

/// The least key from a word on.
fn from(keys: &[u64], x: u64) -> Option<u64> {
    keys.iter().copied().find(|key| *key >= x)
}

/// The greatest key up to a word.
fn upto(keys: &[u64], x: u64) -> Option<u64> {
    keys.iter().copied().filter(|key| *key <= x).last()
}

/// The least word from this one on that is not one of the rising keys.
fn gap_from(keys: &[u64], x: u64) -> Option<u64> {
    let mut at = x;
    for key in keys {
        if *key == at {
            at = at.checked_add(1)?;
        }
    }
    Some(at)
}

/// The greatest word up to this one that is not one of the rising keys.
fn gap_upto(keys: &[u64], x: u64) -> Option<u64> {
    let mut at = x;
    for key in keys.iter().rev() {
        if *key == at {
            at = at.checked_sub(1)?;
        }
    }
    Some(at)
}

fn next_of(keys: &[u64], above: Option<u64>) -> Option<u64> {
    from(keys, above?)
}

fn prev_of(keys: &[u64], below: Option<u64>) -> Option<u64> {
    upto(keys, below?)
}

fn next_gap(keys: &[u64], above: Option<u64>) -> Option<u64> {
    gap_from(keys, above?)
}

fn prev_gap(keys: &[u64], below: Option<u64>) -> Option<u64> {
    gap_upto(keys, below?)
}

/// Compares every query at a word with the rising list of the keys.
fn compare(rt: &impl Abort, set: &Held, keys: &[u64], x: u64) {
    let (above, below) = (x.checked_add(1), x.checked_sub(1));
    let wanted = [
        from(keys, x),
        next_of(keys, above),
        upto(keys, x),
        prev_of(keys, below),
    ];
    holds_at(rt, set.neighbours(x) == wanted, ("neighbours of", x));
    let gaps = [
        gap_from(keys, x),
        next_gap(keys, above),
        gap_upto(keys, x),
        prev_gap(keys, below),
    ];
    holds_at(rt, set.gaps(x) == gaps, ("gaps beside", x));
    let upto = keys.iter().filter(|key| **key <= x).count() as u64;
    same_at(rt, set.count(0, x), upto, ("count up to", x));
    let since = keys.iter().filter(|key| **key >= x).count() as u64;
    same_at(rt, set.count(x, u64::MAX), since, ("count from", x));
}

/// Inserts a key into a set. If memory is refused, nothing has changed, and a second try succeeds.
fn put(rt: &impl Abort, alloc: Global, set: &mut Held, key: u64) -> Result<(), NoMemory> {
    let words = set.words();
    let refusals = set.refusals();
    let population = set.count(0, u64::MAX);
    if set.insert(alloc, key).is_ok() {
        return Ok(());
    }
    same_at(rt, set.words(), words, "words after a refusal");
    same(rt, set.refusals(), refusals.saturating_add(1));
    same(rt, set.count(0, u64::MAX), population);
    same(rt, set.count(key, key), 0);
    set.insert(alloc, key)
}

/// Makes a set of these rising keys, and compares it at each key, next to it, and at both ends of
/// the words.
fn check(rt: &impl Abort, alloc: Global, keys: &[u64]) -> Result<(), Fail> {
    let mut set = Held::new(alloc);
    for key in keys {
        put(rt, alloc, &mut set, *key)?;
    }
    for x in [0, 1, 255, 256, u64::MAX - 1, u64::MAX] {
        compare(rt, &set, keys, x);
    }
    let mut n = 0u64;
    same(rt, set.by_count(0), None);
    for key in keys {
        compare(rt, &set, keys, *key);
        compare(rt, &set, keys, key.wrapping_add(1));
        compare(rt, &set, keys, key.wrapping_sub(1));
        n = n.saturating_add(1);
        same(rt, set.by_count(n), Some(*key));
    }
    same(rt, set.by_count(n.saturating_add(1)), None);
    Ok(())
}

/// This many keys, each a step above the one before.
fn row<const COUNT: usize>(start: u64, step: u64) -> [u64; COUNT] {
    let mut keys = [start; COUNT];
    let mut key = start;
    for place in 0..COUNT {
        keys[place] = key;
        key = key.wrapping_add(step);
    }
    keys
}

#[test]
fn few_keys(rt: HostRuntime) -> Result<(), Fail> {
    check(&rt, rt.alloc(), &[])?;
    check(&rt, rt.alloc(), &[0])?;
    check(&rt, rt.alloc(), &[u64::MAX])?;
    check(&rt, rt.alloc(), &[0, u64::MAX])?;
    check(&rt, rt.alloc(), &[0, 1, 2, 1 << 40, u64::MAX - 1, u64::MAX])
}

#[test]
fn keys_in_a_row(rt: HostRuntime) -> Result<(), Fail> {
    check(&rt, rt.alloc(), &row::<600>(0, 1))?;
    check(&rt, rt.alloc(), &row::<600>(u64::MAX - 599, 1))
}

#[test]
fn keys_far_apart(rt: HostRuntime) -> Result<(), Fail> {
    check(&rt, rt.alloc(), &row::<300>(7, 256))?;
    check(&rt, rt.alloc(), &row::<200>(1 << 33, (1 << 40) + 3))
}
