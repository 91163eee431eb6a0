//! Leaves of every count from 0 to 256 and back. At each step all calls are compared with the slow
//! queries. Each request for memory may be refused once.
use crate::checks::{holds, holds_at, same, same_at};
use crate::leaves::held::{Held, Part, given};
use crate::leaves::wanted::Wanted;
use judy_leaf::{Put, Removed};
use std::alloc::Global;
use std::process::Abort;
use std::test::Fail;

/// The order in which the last bytes of the keys come and go.
#[derive(Clone, Copy, Debug, PartialEq, Eq)]
enum Order {
    Rising,
    Falling,
    Mixed,
}

/// The last byte of the key that comes at this step.
fn byte_of(order: Order, step: u8) -> u8 {
    match order {
        Order::Rising => step,
        Order::Falling => 255 - step,
        Order::Mixed => step.wrapping_mul(91).wrapping_add(17),
    }
}

/// Compares the searches for an entry at a word.
fn compare_entries(rt: &impl Abort, leaf: &Held, wanted: &Wanted, x: u64) {
    same_at(rt, leaf.get(x), wanted.get(x), ("get", x));
    let first = wanted.first_entry(x);
    holds_at(rt, leaf.first_entry(x) == first, ("first entry", x));
    let last = wanted.last_entry(x);
    holds_at(rt, leaf.last_entry(x) == last, ("last entry", x));
}

/// Compares the searches for a gap at a word.
fn compare_gaps(rt: &impl Abort, leaf: &Held, wanted: &Wanted, x: u64) {
    let first = wanted.first_empty(x);
    same_at(rt, leaf.first_empty(x), first, ("first_empty", x));
    let last = wanted.last_empty(x);
    same_at(rt, leaf.last_empty(x), last, ("last_empty", x));
}

/// Compares the ranks and numbers of keys at a word.
fn compare_ranks(rt: &impl Abort, leaf: &Held, wanted: &Wanted, x: u64) {
    same_at(rt, leaf.find(x), wanted.find(x), ("find", x));
    same_at(rt, leaf.count(0, x), wanted.count(0, x), ("count to", x));
    let since = wanted.count(x, u64::MAX);
    same_at(rt, leaf.count(x, u64::MAX), since, ("count from", x));
    let nth = wanted.nth(x % 257);
    same_at(rt, leaf.nth(x % 257), nth, ("nth", x));
    same_at(rt, leaf.key_at(x % 257), nth, ("key_at", x));
}

/// Compares every query at a word.
fn compare(rt: &impl Abort, leaf: &Held, wanted: &Wanted, x: u64) {
    compare_entries(rt, leaf, wanted, x);
    compare_gaps(rt, leaf, wanted, x);
    compare_ranks(rt, leaf, wanted, x);
}

/// Compares every query at a key, next to it, around the 256 words from `base` on, and at both ends
/// of the words.
fn compare_all(rt: &impl Abort, leaf: &Held, wanted: &Wanted, base: u64, key: u64) {
    same(rt, leaf.population(), wanted.population());
    let below = key.wrapping_sub(1);
    let above = key.wrapping_add(1);
    same_at(
        rt,
        leaf.count(below, above),
        wanted.count(below, above),
        ("count around", key),
    );
    let points = [
        key,
        below,
        above,
        base,
        base.wrapping_sub(1),
        base.wrapping_add(255),
        base.wrapping_add(256),
        0,
        u64::MAX,
    ];
    for x in points {
        compare(rt, leaf, wanted, x);
    }
}

/// Compares a leaf of some of the entries, which is then released.
fn compare_part(
    rt: &impl Abort,
    alloc: Global,
    leaf: &mut Held,
    wanted: &Wanted,
    from: u64,
    len: u64,
) {
    let mut seen = leaf.part(alloc, from, len);
    if seen.is_none() {
        seen = leaf.part(alloc, from, len);
    }
    holds_at(rt, seen == wanted.part(from, len), ("part", from, len));
}

/// Compares a leaf of one key, which is then released.
fn compare_single(rt: &impl Abort, alloc: Global, leaf: &mut Held, from: u64, len: u64) {
    let one = Part {
        population: 1,
        first: len,
        last: len,
        value: Some(given(leaf.has_values(), from)),
    };
    let mut seen = leaf.single(alloc, len, from);
    if seen.is_none() {
        seen = leaf.single(alloc, len, from);
    }
    holds_at(rt, seen == Some(one), ("single", len));
}

/// Compares a leaf of one key, and a leaf of some of the entries. Both are then released.
fn compare_parts(
    rt: &impl Abort,
    alloc: Global,
    leaf: &mut Held,
    wanted: &Wanted,
    from: u64,
    len: u64,
) {
    let words = leaf.words();
    compare_part(rt, alloc, leaf, wanted, from, len);
    compare_single(rt, alloc, leaf, from, len);
    same_at(rt, leaf.words(), words, "words after both were given up");
}

/// Inserts an absent key. If memory is refused, nothing has changed, and a second try succeeds.
fn insert(
    rt: &impl Abort,
    alloc: Global,
    leaf: &mut Held,
    wanted: &mut Wanted,
    base: u64,
    key: u64,
) -> Result<(), Fail> {
    let words = leaf.words();
    let refusals = leaf.refusals();
    let mut answer = leaf.insert(alloc, key, key ^ 77);
    if answer == Put::NoMemory {
        same_at(rt, leaf.words(), words, "words after a refusal");
        same(rt, leaf.refusals(), refusals.saturating_add(1));
        compare_all(rt, leaf, wanted, base, key);
        answer = leaf.insert(alloc, key, key ^ 77);
    }
    holds_at(rt, matches!(answer, Put::Done(_)), ("insert", key));
    wanted.insert(key, given(leaf.has_values(), key ^ 77))
}

/// Writes another value to a present key, and inserts the key once more, which changes nothing.
fn write(
    rt: &impl Abort,
    alloc: Global,
    leaf: &mut Held,
    wanted: &mut Wanted,
    key: u64,
) -> Result<(), Fail> {
    let value = given(leaf.has_values(), key ^ 99);
    holds(
        rt,
        leaf.insert(alloc, key, 5) == Put::Present(given(leaf.has_values(), key ^ 77)),
    );
    same(rt, leaf.write(key, value), leaf.has_values());
    holds(rt, leaf.insert(alloc, key, 5) == Put::Present(value));
    wanted.write(key, value)?;
    Ok(())
}

/// Removes a present key, and tries to remove it once more, which changes nothing.
fn remove(rt: &impl Abort, leaf: &mut Held, wanted: &mut Wanted, key: u64) {
    let value = wanted.get(key);
    wanted.remove(key);
    match leaf.remove(key) {
        Removed::Left(_, was) => holds(rt, Some(was) == value && wanted.population() > 0),
        Removed::Emptied(was) => holds(rt, Some(was) == value && wanted.population() == 0),
        Removed::Absent => holds_at(rt, false, ("remove", key)),
    }
    holds(rt, leaf.remove(key) == Removed::Absent);
    holds(rt, !leaf.write(key, 1));
}

/// Inserts the 256 words from `base` on in this order, with all calls at each step.
fn fill(
    rt: &impl Abort,
    alloc: Global,
    leaf: &mut Held,
    wanted: &mut Wanted,
    order: Order,
    base: u64,
) -> Result<(), Fail> {
    for step in 0..256u16 {
        let key = base.wrapping_add(u64::from(byte_of(order, step as u8)));
        insert(rt, alloc, leaf, wanted, base, key)?;
        write(rt, alloc, leaf, wanted, key)?;
        compare_all(rt, leaf, wanted, base, key);
        let from = u64::from(step / 2);
        let len = u64::from(1 + step % 31);
        compare_parts(rt, alloc, leaf, wanted, from, len);
    }
    holds(
        rt,
        leaf.insert(alloc, base.wrapping_add(256), 1) == Put::Split,
    );
    Ok(())
}

/// Removes the 256 words in an order that begins elsewhere, with all calls at each step.
fn empty(
    rt: &impl Abort,
    alloc: Global,
    leaf: &mut Held,
    wanted: &mut Wanted,
    order: Order,
    base: u64,
) {
    for step in 0..256u16 {
        let byte = byte_of(order, (step as u8).wrapping_add(40));
        let key = base.wrapping_add(u64::from(byte));
        remove(rt, leaf, wanted, key);
        compare_all(rt, leaf, wanted, base, key);
        let from = u64::from(step / 9);
        let len = u64::from(1 + step % 31);
        compare_parts(rt, alloc, leaf, wanted, from, len);
    }
    same(rt, leaf.words(), 0);
}

/// One order of keys: up from none to 256 keys and down again.
fn run(rt: &impl Abort, alloc: Global, values: bool, order: Order, base: u64) -> Result<(), Fail> {
    let mut leaf = Held::new(alloc, values);
    let mut wanted = Wanted::new(alloc)?;
    compare_all(rt, &leaf, &wanted, base, base);
    fill(rt, alloc, &mut leaf, &mut wanted, order, base)?;
    empty(rt, alloc, &mut leaf, &mut wanted, order, base);
    Ok(())
}

#[test]
fn a_set_in_rising_order(rt: HostRuntime) -> Result<(), Fail> {
    run(&rt, rt.alloc(), false, Order::Rising, 0)
}

#[test]
fn a_set_in_falling_order(rt: HostRuntime) -> Result<(), Fail> {
    run(&rt, rt.alloc(), false, Order::Falling, 18446744073709551360)
}

#[test]
fn a_set_in_mixed_order(rt: HostRuntime) -> Result<(), Fail> {
    run(&rt, rt.alloc(), false, Order::Mixed, 512)
}

#[test]
fn a_map_in_rising_order(rt: HostRuntime) -> Result<(), Fail> {
    run(&rt, rt.alloc(), true, Order::Rising, 18446744073709551360)
}

#[test]
fn a_map_in_falling_order(rt: HostRuntime) -> Result<(), Fail> {
    run(&rt, rt.alloc(), true, Order::Falling, 65536)
}

#[test]
fn a_map_in_mixed_order(rt: HostRuntime) -> Result<(), Fail> {
    run(&rt, rt.alloc(), true, Order::Mixed, 0)
}
