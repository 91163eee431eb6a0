//! Two sets in one arena, compared call by call with a table of the indexes that are set. Each
//! request for memory may be refused once.

use crate::checks::{holds, holds_at, same, same_at};
use judy_arena::{Arena, NoMemory};
use judy_words::Judy1;
use std::alloc::Global;
use std::process::Abort;
use std::test::Fail;

const INDEXES: [u64; 8] = [0, 1, 255, 256, 65_536, 1 << 32, u64::MAX - 1, u64::MAX];

// Sets an index of the first of two sets. If memory is refused, nothing has changed, and a second
// try succeeds.
fn set_one_of_two(
    rt: &impl Abort,
    alloc: Global,
    arena: &mut Arena,
    first: &mut Judy1,
    second: Judy1,
    x: u64,
) -> Result<bool, NoMemory> {
    judy_tree::laws::others_stay();
    let words = arena.live_words();
    let refusals = arena.refusals();
    let reference = first.reference();
    let population = first.population(arena);
    let other = second.population(arena);
    if let Ok(new) = first.set(alloc, arena, x) {
        return Ok(new);
    }
    same_at(rt, arena.live_words(), words, "words after a refusal");
    same(rt, arena.refusals(), refusals.saturating_add(1));
    holds_at(
        rt,
        first.reference() == reference,
        "the reference after a refusal",
    );
    same(rt, first.population(arena), population);
    holds_at(rt, !first.test(arena, x), "a refused index is set");
    same_at(rt, second.population(arena), other, "the other set");
    first.set(alloc, arena, x)
}

// One call of the first of two sets: 0 to 4 sets an index, 5 to 7 unsets it, 8 tests it, and any
// other number clears the set.
fn call_one_of_two(
    rt: &impl Abort,
    alloc: Global,
    arena: &mut Arena,
    first: &mut Judy1,
    second: Judy1,
    call: u64,
    place: usize,
    is_set: &mut [bool; 8],
) -> Result<(), NoMemory> {
    judy_tree::laws::others_stay();
    let x = INDEXES[place];
    let was = is_set[place];
    match call {
        0..=4 => {
            let new = set_one_of_two(rt, alloc, arena, first, second, x)?;
            same_at(rt, new, !was, ("set", x));
            is_set[place] = true;
            Ok(())
        }
        5..=7 => {
            same_at(rt, first.unset(arena, x), was, ("unset", x));
            is_set[place] = false;
            Ok(())
        }
        8 => {
            same_at(rt, first.test(arena, x), was, ("test", x));
            Ok(())
        }
        _ => {
            let many = is_set.iter().filter(|set| **set).count() as u64;
            same_at(rt, first.clear(arena), many, "clear");
            *is_set = [false; 8];
            Ok(())
        }
    }
}

#[test]
fn two_sets_in_one_arena(rt: HostRuntime) -> Result<(), Fail> {
    judy_tree::laws::only_nothing_is_empty();
    judy_tree::laws::others_stay();
    let mut arena = Arena::new(rt.alloc());
    let mut first = Judy1::new();
    let mut second = Judy1::new();
    let mut in_first = [false; 8];
    let mut in_second = [false; 8];
    let mut seed: u64 = 1;
    for _ in 0..500u32 {
        seed = seed
            .wrapping_mul(6_364_136_223_846_793_005)
            .wrapping_add(1_442_695_040_888_963_407);
        let call = (seed >> 33) % 10;
        let place = ((seed >> 40) % 8) as usize;
        call_one_of_two(
            &rt,
            rt.alloc(),
            &mut arena,
            &mut first,
            second,
            call,
            place,
            &mut in_first,
        )?;
        let many = in_first.iter().filter(|set| **set).count() as u64;
        same_at(
            &rt,
            first.population(&arena),
            many,
            "indexes of the first set",
        );
        let call = (seed >> 44) % 10;
        let place = ((seed >> 50) % 8) as usize;
        call_one_of_two(
            &rt,
            rt.alloc(),
            &mut arena,
            &mut second,
            first,
            call,
            place,
            &mut in_second,
        )?;
        let many = in_second.iter().filter(|set| **set).count() as u64;
        same_at(
            &rt,
            second.population(&arena),
            many,
            "indexes of the second set",
        );
    }
    first.clear(&mut arena);
    second.clear(&mut arena);
    same(&rt, arena.live_words(), 0);
    Ok(())
}

#[test]
fn a_set_by_hand(rt: HostRuntime) -> Result<(), Fail> {
    judy_tree::laws::only_nothing_is_empty();
    let mut arena = Arena::new(rt.alloc());
    let mut set = Judy1::new();
    let other = Judy1::new();
    holds(
        &rt,
        set_one_of_two(&rt, rt.alloc(), &mut arena, &mut set, other, 12)?,
    );
    holds(&rt, !set.set(rt.alloc(), &mut arena, 12)?);
    let again = Judy1::from_reference(set.reference());
    holds(&rt, again.test(&arena, 12));
    holds(&rt, !again.test(&arena, 13));
    same(&rt, again.population(&arena), 1);
    holds(&rt, set.unset(&mut arena, 12));
    holds(&rt, !set.unset(&mut arena, 12));
    holds(&rt, set.reference() == Judy1::new().reference());
    Ok(())
}
