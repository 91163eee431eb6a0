//! Branches of 2 to 256 children and back, compared with a plain table. Each request for memory may
//! be refused once.

mod held;

use crate::checks::{holds, holds_at, same, same_at};
use held::{Held, Left, reference_of};
use judy_arena::NoMemory;
use judy_refs::Ref;
use std::alloc::Global;
use std::process::Abort;
use std::test::Fail;

/// The order in which the bytes of the children come and go.
#[derive(Clone, Copy, Debug, PartialEq, Eq)]
enum Order {
    Rising,
    Falling,
    Mixed,
}

fn byte_of(order: Order, step: u8) -> u8 {
    match order {
        Order::Rising => step,
        Order::Falling => 255 - step,
        Order::Mixed => step.wrapping_mul(91).wrapping_add(17),
    }
}

/// A linear leaf's reference, different for each byte.
fn word_of(byte: u8) -> u64 {
    4_294_967_296 + 1000 + 7 * u64::from(byte)
}

/// The words of each byte's child, or 0 if it has none.
type Table = [u64; 256];

/// The least size of a block that holds the words of a branch of this many children.
fn size_of(count: usize) -> u64 {
    let used = if count <= 8 {
        count.saturating_add(4)
    } else if count <= 127 {
        count.saturating_add(7)
    } else {
        259
    };
    for size in [8, 16, 32, 64, 128, 256] {
        if used <= size {
            return size as u64;
        }
    }
    512
}

fn word(found: Option<(u8, Ref)>) -> (u16, u64) {
    match found {
        Some((byte, child)) => (u16::from(byte), child.word()),
        None => (256, 0),
    }
}

/// Compares the head of a branch.
fn compare_head(rt: &impl Abort, held: &Held, population: u64) {
    let (head, is_same) = held.head();
    holds(rt, is_same);
    same(
        rt,
        (head.level, head.prefix, head.population),
        (3, PREFIX, population),
    );
}

/// Compares the child of each byte, and the child before it, with the table. Returns how many there are.
fn compare_rising(rt: &impl Abort, held: &Held, table: &Table) -> usize {
    let mut below = (256, 0);
    let mut count = 0usize;
    for byte in 0..256usize {
        let here = table[byte];
        let found = held.child(byte as u8);
        same_at(
            rt,
            found.map_or(0, |child| child.word()),
            here,
            ("child", byte),
        );
        if here != 0 {
            below = (byte as u16, here);
            count = count.saturating_add(1);
        }
        same_at(rt, word(held.prev_child(byte as u8)), below, ("prev", byte));
    }
    same(rt, word(Some(held.last_child())), below);
    count
}

/// Compares the child after each byte with the table.
fn compare_falling(rt: &impl Abort, held: &Held, table: &Table) {
    let mut above = (256, 0);
    for back in 0..256usize {
        let byte = 255 - back;
        if table[byte] != 0 {
            above = (byte as u16, table[byte]);
        }
        same_at(rt, word(held.next_child(byte as u8)), above, ("next", byte));
    }
}

/// Compares every reader with the table.
fn compare(rt: &impl Abort, held: &Held, table: &Table, population: u64) {
    compare_head(rt, held, population);
    let count = compare_rising(rt, held, table);
    same(rt, held.child_count(), count);
    same_at(rt, held.words(), size_of(count), ("words of", count));
    compare_falling(rt, held, table);
}

/// Bytes 0 to 2 of the keys below.
const PREFIX: u64 = 0x0102_0300_0000_0000;

/// Inserts a child. If memory is refused, nothing has changed, and a second try succeeds.
fn put(
    rt: &impl Abort,
    alloc: Global,
    held: &mut Held,
    table: &mut Table,
    byte: u8,
    population: u64,
) -> Result<(), NoMemory> {
    let Some(child) = reference_of(word_of(byte)) else {
        return Ok(());
    };
    let refusals = held.refusals();
    let mut answer = held.put(alloc, byte, child, population);
    if matches!(answer, Some(Err(_))) {
        same(rt, held.refusals(), refusals.saturating_add(1));
        compare(rt, held, table, population.wrapping_sub(1));
        answer = held.put(alloc, byte, child, population);
    }
    holds_at(rt, matches!(answer, Some(Ok(()))), ("put", byte));
    table[usize::from(byte)] = child.word();
    Ok(())
}

/// Replaces the child of a byte, and puts the first one back.
fn swap(rt: &impl Abort, held: &mut Held, table: &mut Table, byte: u8, population: u64) {
    let Some(child) = reference_of(word_of(byte)) else {
        return;
    };
    let Some(other) = reference_of(word_of(byte).wrapping_add(4_294_967_299)) else {
        return;
    };
    holds_at(rt, held.set(byte, other, population), ("set", byte));
    table[usize::from(byte)] = other.word();
    compare(rt, held, table, population);
    holds_at(rt, held.set(byte, child, population), ("set", byte));
    table[usize::from(byte)] = child.word();
}

/// A branch of the first two children of an order.
fn start(alloc: Global, order: Order, table: &mut Table) -> Result<Option<Held>, NoMemory> {
    let (one, two) = (byte_of(order, 0), byte_of(order, 1));
    let (low, high) = if one < two { (one, two) } else { (two, one) };
    let (Some(first), Some(second)) = (reference_of(word_of(low)), reference_of(word_of(high)))
    else {
        return Ok(None);
    };
    if low >= high {
        return Ok(None);
    }
    table[usize::from(low)] = first.word();
    table[usize::from(high)] = second.word();
    let held = Held::of_two(alloc, PREFIX, (low, first), (high, second))?;
    Ok(Some(held))
}

/// Removes a child. A branch is left.
fn take(
    rt: &impl Abort,
    held: Held,
    table: &mut Table,
    byte: u8,
    population: u64,
) -> Result<Held, Fail> {
    match held.take(byte, population) {
        Some(Left::Branch(left)) => {
            table[usize::from(byte)] = 0;
            compare(rt, &left, table, population);
            Ok(left)
        }
        _ => Err(Fail::from("a branch is left")),
    }
}

/// Removes all children but two.
fn take_many(
    rt: &impl Abort,
    mut held: Held,
    table: &mut Table,
    order: Order,
) -> Result<Held, Fail> {
    for step in 0..254u8 {
        held = take(rt, held, table, byte_of(order, step), 255 - u64::from(step))?;
    }
    Ok(held)
}

/// Inserts all children but the first two.
fn put_many(
    rt: &impl Abort,
    alloc: Global,
    mut held: Held,
    table: &mut Table,
    order: Order,
) -> Result<Held, Fail> {
    compare(rt, &held, table, 2);
    for step in 2..256u64 {
        let byte = byte_of(order, step as u8);
        put(rt, alloc, &mut held, table, byte, step + 1)?;
        compare(rt, &held, table, step + 1);
        swap(rt, &mut held, table, byte, step + 1);
    }
    Ok(held)
}

/// Removes the last two children.
fn take_last(rt: &impl Abort, held: Held, table: &Table, byte: u8, other: u8) -> Result<(), Fail> {
    match held.take(byte, 1) {
        Some(Left::Only(child, words)) => {
            same(rt, (child, words), (table[usize::from(other)], 0));
            Ok(())
        }
        _ => Err(Fail::from("one child is left")),
    }
}

/// All children come, and go again in the same order.
fn there_and_back(rt: &impl Abort, alloc: Global, order: Order) -> Result<(), Fail> {
    let mut table = [0; 256];
    match start(alloc, order, &mut table)? {
        Some(held) => round(rt, alloc, held, &mut table, order),
        None => Err(Fail::from("two children")),
    }
}

/// From two children to all, and down to one.
fn round(
    rt: &impl Abort,
    alloc: Global,
    first: Held,
    table: &mut Table,
    order: Order,
) -> Result<(), Fail> {
    let full = put_many(rt, alloc, first, table, order)?;
    let left = take_many(rt, full, table, order)?;
    take_last(rt, left, table, byte_of(order, 254), byte_of(order, 255))
}

#[test]
fn children_come_and_go_in_rising_order(rt: HostRuntime) -> Result<(), Fail> {
    there_and_back(&rt, rt.alloc(), Order::Rising)
}

#[test]
fn children_come_and_go_in_falling_order(rt: HostRuntime) -> Result<(), Fail> {
    there_and_back(&rt, rt.alloc(), Order::Falling)
}

#[test]
fn children_come_and_go_in_mixed_order(rt: HostRuntime) -> Result<(), Fail> {
    there_and_back(&rt, rt.alloc(), Order::Mixed)
}

#[test]
fn a_branch_is_given_up(rt: HostRuntime) -> Result<(), Fail> {
    let mut table = [0; 256];
    let Some(held) = start(rt.alloc(), Order::Rising, &mut table)? else {
        return Err(Fail::from("two children"));
    };
    same(&rt, held.words(), 8);
    same(&rt, held.release(), 0);
    Ok(())
}
