//! A worked row, the arena compared with a plain list of blocks that the test keeps, and refused
//! requests. Each request for memory may be refused once.

use crate::checks::{holds, same};
use judy_arena::{Arena, Block, NoMemory};
use std::alloc::{AllocError, Global};
use std::process::Abort;
use std::test::Fail;

/// How many places for a block the plain list has.
const PLACES: usize = 500;

/// A place of the plain list: no block, or a block and its expected words, the first `len` of
/// these.
#[derive(Drop)]
struct Place {
    block: Option<Block>,
    len: usize,
    words: [u64; 512],
}

/// Asks for a block. If it is refused, nothing but the count has changed, and a second request
/// follows.
fn ask(rt: &impl Abort, alloc: Global, arena: &mut Arena, len: usize) -> Result<Block, NoMemory> {
    let before = (arena.live_words(), arena.region(), arena.refusals());
    if let Ok(block) = arena.alloc(alloc, len) {
        same(rt, arena.refusals(), before.2);
        return Ok(block);
    }
    same(rt, arena.live_words(), before.0);
    same(rt, arena.region(), before.1);
    same(rt, arena.refusals(), before.2.saturating_add(1));
    arena.alloc(alloc, len)
}

/// Makes sure that a block of any size is free. If that is refused, a second request follows.
fn make_ready(rt: &impl Abort, alloc: Global, arena: &mut Arena) -> Result<(), NoMemory> {
    let before = (arena.live_words(), arena.region(), arena.refusals());
    if arena.reserve(alloc).is_ok() {
        same(rt, arena.refusals(), before.2);
        return Ok(());
    }
    same(rt, arena.live_words(), before.0);
    same(rt, arena.region(), before.1);
    same(rt, arena.refusals(), before.2.saturating_add(1));
    arena.reserve(alloc)
}

/// A list with room for this many items. If memory is refused, a second request follows.
fn list<T>(alloc: Global, room: usize) -> Result<Vec<T>, AllocError> {
    match Vec::with_capacity(alloc, room) {
        Ok(made) => Ok(made),
        Err(_) => Vec::with_capacity(alloc, room),
    }
}

fn take(
    rt: &impl Abort,
    alloc: Global,
    arena: &mut Arena,
    place: &mut Place,
    len: usize,
) -> Result<(), NoMemory> {
    let block = ask(rt, alloc, arena, len)?;
    let words = arena.words(block);
    let wanted = len.next_power_of_two().max(4);
    same(rt, words.len(), wanted);
    holds(rt, words.iter().all(|word| *word == 0));
    place.block = Some(block);
    place.len = wanted;
    place.words.fill(0);
    Ok(())
}

fn write(
    rt: &impl Abort,
    arena: &mut Arena,
    place: &mut Place,
    block: Block,
    pick: usize,
    word: u64,
) {
    let i = pick.checked_rem(place.len).unwrap_or(0);
    holds(rt, i < arena.size(block));
    arena.set(block, i, word);
    if let Some(kept) = place.words.get_mut(i) {
        *kept = word;
    }
}

fn shrink(rt: &impl Abort, arena: &mut Arena, place: &mut Place, block: Block, pick: usize) {
    let len = pick.checked_rem(place.len).unwrap_or(0).saturating_add(1);
    holds(rt, len <= arena.size(block) && len <= 512);
    arena.shrink(block, len);
    place.len = len.next_power_of_two().max(4);
    same(rt, arena.size(block), place.len);
}

fn release(rt: &impl Abort, arena: &mut Arena, place: &mut Place, block: Block) {
    holds(rt, 0 < arena.size(block));
    arena.release(block);
    same(rt, arena.size(block), 0);
    place.block = None;
}

/// Compares all blocks. Returns how many there are.
fn compare(rt: &impl Abort, arena: &Arena, places: &[Place]) -> usize {
    let mut total = 0u64;
    let mut count = 0usize;
    for place in places {
        if let Some(block) = place.block {
            holds(rt, 0 < arena.size(block));
            same(rt, Some(arena.words(block)), place.words.get(..place.len));
            total = total.saturating_add(place.len as u64);
            count = count.saturating_add(1);
        }
    }
    same(rt, arena.live_words(), total);
    count
}

/// The next number of a linear congruential generator.
fn next(seed: u64) -> u64 {
    seed.wrapping_mul(6_364_136_223_846_793_005)
        .wrapping_add(1_442_695_040_888_963_407)
}

/// A fresh block of 8 words is written, cut and released.
fn write_and_cut(rt: &impl Abort, arena: &mut Arena, block: Block) {
    holds(rt, arena.size(block) == 8);
    arena.set(block, 2, 7);
    arena.shrink(block, 3);
    holds(rt, arena.size(block) == 4);
    same(rt, arena.words(block), [0, 0, 7, 0].as_slice());
    same(rt, arena.live_words(), 4);
    arena.release(block);
    same(rt, arena.live_words(), 0);
}

/// A block is taken, while there is room for it, and given back.
fn take_and_give_back(rt: &impl Abort, alloc: Global, arena: &mut Arena) -> Result<(), NoMemory> {
    holds(rt, arena.spare(512));
    let block = arena.alloc(alloc, 5)?;
    same(rt, arena.words(block), [0, 0, 0, 0, 0, 0, 0, 0].as_slice());
    same(rt, arena.live_words(), 8);
    write_and_cut(rt, arena, block);
    Ok(())
}

/// The worked row. Returns how many requests were refused.
fn row(rt: &impl Abort, alloc: Global) -> Result<u64, Fail> {
    let mut arena = Arena::new(alloc);
    same(rt, arena.live_words(), 0);
    holds(rt, !arena.spare(1));
    make_ready(rt, alloc, &mut arena)?;
    let refused = arena.refusals();
    take_and_give_back(rt, alloc, &mut arena)?;
    same(rt, arena.refusals(), refused);
    arena.blocks_are_sized();
    same(rt, arena.peak(), 8);
    holds(rt, arena.spare(512));
    arena.the_region_is_bounded();
    arena.the_region_is_filled();
    arena.no_word_is_lost();
    Ok(refused)
}

// The machine refuses at most one request. If two arenas get the same calls, at most one request of
// both is refused.
#[test]
fn the_worked_row(rt: HostRuntime) -> Result<(), Fail> {
    let refused = row(&rt, rt.alloc())?;
    let again = row(&rt, rt.alloc())?;
    holds(&rt, refused.saturating_add(again) <= 1);
    Ok(())
}

/// One turn: a block is allocated, released, cut or written at a place.
fn turn(
    rt: &impl Abort,
    alloc: Global,
    arena: &mut Arena,
    place: &mut Place,
    seed: u64,
) -> Result<(), NoMemory> {
    let pick = (seed >> 33) as usize;
    let Some(block) = place.block else {
        let most = 4usize << (pick % 8);
        let less = (pick / 8).checked_rem(most / 2).unwrap_or(0);
        holds(rt, less < most && most <= 512);
        return take(rt, alloc, arena, place, most - less);
    };
    match (seed >> 28) % 4 {
        0 | 1 => release(rt, arena, place, block),
        2 => shrink(rt, arena, place, block, pick),
        _ => write(rt, arena, place, block, pick, seed),
    }
    Ok(())
}

/// The plain list, with no block.
fn no_blocks(alloc: Global) -> Result<Vec<Place>, Fail> {
    let mut places = list(alloc, PLACES)?;
    for _ in 0..PLACES {
        places.push(Place {
            block: None,
            len: 0,
            words: [0; 512],
        })?;
    }
    Ok(places)
}

/// Makes this many turns and compares with the plain list.
fn turns(
    rt: &impl Abort,
    alloc: Global,
    arena: &mut Arena,
    places: &mut Vec<Place>,
    many: u32,
) -> Result<(), NoMemory> {
    let mut seed = 1;
    for step in 0..many {
        seed = next(seed);
        let pick = (seed >> 40) as usize % PLACES;
        if let Some(place) = places.get_mut(pick) {
            turn(rt, alloc, arena, place, seed)?;
        }
        if step % 5_000 == 0 {
            let _ = compare(rt, arena, places);
        }
    }
    holds(rt, compare(rt, arena, places) > 300);
    Ok(())
}

/// Releases all blocks.
fn release_all(rt: &impl Abort, arena: &mut Arena, places: &mut Vec<Place>) {
    for place in places {
        if let Some(block) = place.block {
            release(rt, arena, place, block);
        }
    }
    same(rt, arena.live_words(), 0);
}

/// A free block of 512 words is taken.
fn take_512(rt: &impl Abort, alloc: Global, arena: &mut Arena) -> Result<(), NoMemory> {
    holds(rt, arena.spare(512));
    let _kept = arena.alloc(alloc, 512)?;
    Ok(())
}

/// All released blocks have merged: each run is one free block.
fn all_merged(rt: &impl Abort, alloc: Global, arena: &mut Arena) -> Result<(), NoMemory> {
    let region = arena.region();
    for _ in 0..region / 512 {
        take_512(rt, alloc, arena)?;
    }
    holds(rt, !arena.spare(1));
    same(rt, (arena.live_words(), arena.region()), (region, region));
    Ok(())
}

/// Makes this many turns and releases all blocks. Returns how many requests were refused.
fn walk(rt: &impl Abort, alloc: Global, many: u32) -> Result<u64, Fail> {
    let mut arena = Arena::new(alloc);
    let mut places = no_blocks(alloc)?;
    turns(rt, alloc, &mut arena, &mut places, many)?;
    release_all(rt, &mut arena, &mut places);
    all_merged(rt, alloc, &mut arena)?;
    Ok(arena.refusals())
}

#[test]
fn as_a_plain_list_does(rt: HostRuntime) -> Result<(), Fail> {
    let refused = walk(&rt, rt.alloc(), 100_000)?;
    let again = walk(&rt, rt.alloc(), 10_000)?;
    holds(&rt, refused.saturating_add(again) <= 1);
    Ok(())
}

/// This many blocks of a size.
fn many_of(
    rt: &impl Abort,
    alloc: Global,
    arena: &mut Arena,
    many: usize,
    len: usize,
) -> Result<Vec<Block>, Fail> {
    let mut taken: Vec<Block> = list(alloc, many)?;
    for _ in 0..many {
        taken.push(ask(rt, alloc, arena, len)?)?;
    }
    Ok(taken)
}

/// Releases the blocks.
fn give_back(rt: &impl Abort, arena: &mut Arena, taken: &mut Vec<Block>) {
    for block in taken.iter() {
        holds(rt, 0 < arena.size(*block));
        arena.release(*block);
    }
    same(rt, arena.live_words(), 0);
    taken.clear();
}

/// Allocates 300 blocks, for which there is room.
fn take_300(
    rt: &impl Abort,
    alloc: Global,
    arena: &mut Arena,
    taken: &mut Vec<Block>,
) -> Result<(), Fail> {
    for _ in 0..300u32 {
        holds(rt, arena.spare(200));
        taken.push(arena.alloc(alloc, 200)?)?;
    }
    Ok(())
}

/// Releases all blocks and allocates the same number of the same size again, round after round. No
/// words come from the machine.
fn take_again(
    rt: &impl Abort,
    alloc: Global,
    arena: &mut Arena,
    taken: &mut Vec<Block>,
) -> Result<(), Fail> {
    let region = arena.region();
    for _ in 0..25u32 {
        give_back(rt, arena, taken);
        take_300(rt, alloc, arena, taken)?;
        same(rt, arena.region(), region);
    }
    Ok(())
}

#[test]
fn released_blocks_are_taken_again(rt: HostRuntime) -> Result<(), Fail> {
    let alloc = rt.alloc();
    let mut arena = Arena::new(alloc);
    let mut taken = many_of(&rt, alloc, &mut arena, 300, 200)?;
    same(&rt, arena.region(), 300 / 2 * 512);
    take_again(&rt, alloc, &mut arena, &mut taken)?;

    // Also while a greater block is free. The released blocks merge, so one run is free at the end.
    make_ready(&rt, alloc, &mut arena)?;
    take_again(&rt, alloc, &mut arena, &mut taken)?;
    holds(&rt, arena.spare(512));
    same(&rt, arena.region(), 300 / 2 * 512 + 512);
    holds(&rt, arena.refusals() <= 1);
    Ok(())
}

/// Releases each third block from this one on. No run is whole before the last of these is released.
fn release_thirds(rt: &impl Abort, arena: &mut Arena, taken: &Vec<Block>, first: usize) {
    for block in taken.iter().skip(first).step_by(3) {
        holds(rt, !arena.spare(512));
        holds(rt, 0 < arena.size(*block));
        arena.release(*block);
    }
}

#[test]
fn buddies_merge(rt: HostRuntime) -> Result<(), Fail> {
    let alloc = rt.alloc();
    let mut arena = Arena::new(alloc);
    let taken = many_of(&rt, alloc, &mut arena, 128, 4)?;
    same(&rt, (arena.live_words(), arena.region()), (512, 512));
    for first in 0..3usize {
        release_thirds(&rt, &mut arena, &taken, first);
    }
    holds(&rt, arena.spare(512));
    let _whole = arena.alloc(alloc, 512)?;
    same(&rt, (arena.region(), arena.peak()), (512, 512));
    Ok(())
}

/// Allocates a block of each size below 512.
fn take_one_of_each(alloc: Global, arena: &mut Arena) -> Result<(), NoMemory> {
    for len in [4, 8, 16, 32, 64, 128, 256] {
        let _kept = arena.alloc(alloc, len)?;
    }
    Ok(())
}

/// A block of 512 words is cut while a run is free, which stays whole.
fn cut_a_block(rt: &impl Abort, alloc: Global, arena: &mut Arena) -> Result<(), NoMemory> {
    let block = arena.alloc(alloc, 512)?;
    arena.reserve(alloc)?;
    holds(rt, arena.size(block) == 512);
    arena.shrink(block, 1);
    Ok(())
}

#[test]
fn no_half_is_lost(rt: HostRuntime) -> Result<(), Fail> {
    let alloc = rt.alloc();
    let mut arena = Arena::new(alloc);

    // When a run is cut for a block of 4 words, its other halves serve for one block of each size
    // below 512.
    let _least = ask(&rt, alloc, &mut arena, 4)?;
    take_one_of_each(alloc, &mut arena)?;
    same(&rt, (arena.live_words(), arena.region()), (512, 512));
    holds(&rt, !arena.spare(1));

    // So do the halves of a block that is cut.
    cut_a_block(&rt, alloc, &mut arena)?;
    take_one_of_each(alloc, &mut arena)?;
    same(&rt, (arena.live_words(), arena.region()), (1024, 1536));
    holds(&rt, arena.spare(512));
    Ok(())
}

/// Allocates 300 blocks of 512 words. Returns how many requests were refused.
fn fill(rt: &impl Abort, alloc: Global) -> u64 {
    let mut arena = Arena::new(alloc);
    let mut refused = 0u64;
    for _ in 0..300u16 {
        let before = (arena.live_words(), arena.region());
        match arena.alloc(alloc, 512) {
            Ok(_) => same(rt, arena.live_words(), before.0.saturating_add(512)),
            Err(NoMemory) => {
                refused = refused.saturating_add(1);
                same(rt, (arena.live_words(), arena.region()), before);
            }
        }
        same(rt, arena.refusals(), refused);
    }
    same(rt, arena.region(), arena.live_words());
    refused
}

#[test]
fn each_refusal_is_counted(rt: HostRuntime) {
    let refused = fill(&rt, rt.alloc());
    let again = fill(&rt, rt.alloc());
    holds(&rt, refused.saturating_add(again) <= 1);
}

/// Words are copied into a block of 8, and from there to another.
fn copies(rt: &impl Abort, arena: &mut Arena, from: Block, to: Block) {
    holds(rt, from != to);
    holds(rt, arena.size(from) == 8 && arena.size(to) == 8);
    arena.copy_in(from, 1, &[10, 20, 30, 40, 50]);
    arena.copy(from, 2, to, 0, 3);
    same(
        rt,
        arena.words(from),
        [0, 10, 20, 30, 40, 50, 0, 0].as_slice(),
    );
    same(rt, arena.words(to), [20, 30, 40, 0, 0, 0, 0, 0].as_slice());
    same(rt, arena.get(from, 5), 50);
}

/// All words of a block are written, and none of another.
fn writes(rt: &impl Abort, arena: &mut Arena, from: Block, to: Block) {
    holds(rt, from != to);
    holds(rt, arena.size(from) == 8 && arena.size(to) == 8);
    arena.words_mut(from).fill(9);
    holds(rt, arena.size(from) == 8 && arena.size(to) == 8);
    same(rt, arena.words(from), [9, 9, 9, 9, 9, 9, 9, 9].as_slice());
    same(rt, arena.words(to), [20, 30, 40, 0, 0, 0, 0, 0].as_slice());
}

/// A block grows, and keeps its first two words.
fn grows(rt: &impl Abort, alloc: Global, arena: &mut Arena, to: Block) -> Result<(), NoMemory> {
    holds(rt, arena.size(to) == 8);
    let wide = arena.grow(alloc, to, 2, 9)?;
    holds(rt, arena.size(wide) == 16);
    same(rt, &arena.words(wide)[..4], [20, 30, 0, 0].as_slice());
    same(rt, arena.live_words(), 24);
    Ok(())
}

#[test]
fn copies_and_grows(rt: HostRuntime) -> Result<(), Fail> {
    let mut arena = Arena::new(rt.alloc());
    let from = ask(&rt, rt.alloc(), &mut arena, 6)?;
    let to = arena.alloc(rt.alloc(), 6)?;
    copies(&rt, &mut arena, from, to);
    writes(&rt, &mut arena, from, to);
    grows(&rt, rt.alloc(), &mut arena, to)?;
    Ok(())
}
