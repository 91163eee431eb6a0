//! What a set takes from the machine: the exact places at which it takes words, over fixed series
//! of calls.
use crate::checks::{same, same_at};
use crate::words::arrays::{Arrays, Which};
use judy_arena::NoMemory;
use judy_model::{OneCall, OwnedReply};
use std::alloc::Global;
use std::process::Abort;
use std::test::Fail;

/// Inserts a key into the first set. If memory is refused, a second try succeeds.
fn put(alloc: Global, arrays: &mut Arrays, key: u64) -> Result<OwnedReply, NoMemory> {
    match arrays.one(alloc, Which::First, OneCall::Set(key)) {
        Ok(reply) => Ok(reply),
        Err(_) => arrays.one(alloc, Which::First, OneCall::Set(key)),
    }
}

/// Removes 300 keys. The words that the arena took stay at each call.
fn remove_all(rt: &impl Abort, alloc: Global, arrays: &mut Arrays, step: u64) -> Result<(), Fail> {
    let region = arrays.region();
    for number in 0..300u64 {
        let key = step.wrapping_mul(number);
        let _ = arrays.one(alloc, Which::First, OneCall::Unset(key))?;
        same_at(rt, arrays.region(), region, ("entry", number));
    }
    same(rt, arrays.live_words(), 0);
    Ok(())
}

/// Inserts 300 keys and removes them, three times. The words taken rise by 512 exactly at these
/// rounds and entries.
fn series(rt: &impl Abort, alloc: Global, step: u64, places: &[(u64, u64)]) -> Result<(), Fail> {
    let mut arrays = Arrays::new(alloc);
    let mut rises = 0usize;
    for round in 0..3u64 {
        for number in 0..300u64 {
            let before = arrays.region();
            let _ = put(alloc, &mut arrays, step.wrapping_mul(number))?;
            let after = arrays.region();
            if after != before {
                same_at(rt, after, before.saturating_add(512), ("entry", number));
                same_at(
                    rt,
                    places.get(rises),
                    Some(&(round, number)),
                    ("step", step),
                );
                rises = rises.saturating_add(1);
            }
        }
        remove_all(rt, alloc, &mut arrays, step)?;
    }
    same_at(rt, rises, places.len(), ("step", step));
    Ok(())
}

#[test]
fn neighbours_take_one_run(rt: HostRuntime) -> Result<(), Fail> {
    series(&rt, rt.alloc(), 1, &[(0, 0)])
}

// A full branch takes a whole run. Removals cut its block; the parts merge when they are released, so
// the next round takes none.
#[test]
fn keys_apart_take_a_run_where_no_free_block_serves(rt: HostRuntime) -> Result<(), Fail> {
    let places = [(0, 0), (0, 96), (0, 127), (0, 256)];
    series(&rt, rt.alloc(), 256, &places)
}

#[test]
fn keys_far_apart_take_a_run_where_no_free_block_serves(rt: HostRuntime) -> Result<(), Fail> {
    let places = [(0, 0), (0, 96), (0, 127)];
    series(&rt, rt.alloc(), 72_057_594_037_927_937, &places)
}
