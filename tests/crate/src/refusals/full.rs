//! Arenas of one full chunk, with exactly the given free blocks.

use crate::checks::{holds, holds_at};
use judy_arena::{Arena, Block, NoMemory};
use std::alloc::Global;
use std::process::Abort;

/// The words of an arena that asked the machine for memory once.
pub(crate) const CHUNK: u64 = 65_536;

/// The sizes of blocks, the greatest first.
pub(crate) const SIZES: [usize; 8] = [512, 256, 128, 64, 32, 16, 8, 4];

/// The sizes of the blocks, in words, for the entries before, in addition to 130 blocks of 4 words.
const BEFORE: [usize; 15] = [8, 8, 8, 16, 16, 16, 32, 32, 64, 64, 128, 128, 256, 256, 512];

/// Writes a word to a block that no entry uses, so that a lost or changed block is seen.
fn mark(arena: &mut Arena, block: Block) {
    if arena.size(block) > 0 {
        arena.set(block, 0, 165);
    }
}

/// Allocates a block that no entry uses and that is never released.
pub(crate) fn take(alloc: Global, arena: &mut Arena, len: usize) -> Result<(), NoMemory> {
    let _block = arena.alloc(alloc, len)?;
    Ok(())
}

/// Allocates a block of each size, while there are places, and then blocks of 4 words. After each
/// comes another one of its size, which stays live: so a block does not merge when it is released.
fn take_all(
    rt: &impl Abort,
    alloc: Global,
    arena: &mut Arena,
    places: &mut [Option<Block>],
    sizes: &[usize],
) -> Result<(), NoMemory> {
    let mut sizes = sizes.iter().chain(&BEFORE);
    for place in places {
        let len = *sizes.next().unwrap_or(&4);
        holds(rt, 1 <= len && len <= 512);
        *place = Some(arena.alloc(alloc, len)?);
        if len < 512 {
            let beside = arena.alloc(alloc, len)?;
            mark(arena, beside);
        }
    }
    Ok(())
}

/// Allocates the rest of the chunk.
fn fill(alloc: Global, arena: &mut Arena) -> Result<(), NoMemory> {
    for _ in 0..128u32 {
        if arena.region() % CHUNK != 0 {
            let run = arena.alloc(alloc, 512)?;
            mark(arena, run);
        }
    }
    for len in SIZES {
        if arena.spare(len) {
            let _rest = arena.alloc(alloc, len)?;
        }
    }
    Ok(())
}

/// An arena of one full chunk. The free blocks have these sizes and those for the entries before,
/// with 130 of 4 words.
pub(crate) fn arena_with(
    rt: &impl Abort,
    alloc: Global,
    sizes: &[usize],
) -> Result<Arena, NoMemory> {
    let mut arena = Arena::new(alloc);
    let mut places = [None; 192];
    let count = sizes.len().saturating_add(145).min(192);
    holds(rt, count <= places.len());
    take_all(rt, alloc, &mut arena, &mut places[..count], sizes)?;
    fill(alloc, &mut arena)?;
    holds_at(
        rt,
        !arena.spare(4) && arena.region() == CHUNK,
        "a full chunk",
    );
    for block in places.iter().flatten() {
        holds(rt, 0 < arena.size(*block));
        arena.release(*block);
    }
    Ok(arena)
}
