//! An insertion that takes blocks, when the arena's chunk is full and only the first of these
//! blocks are free. The next one is asked of the machine. A run in which the machine refuses it
//! shows what a refusal leaves. In the other runs the arena grows.

use crate::checks::{holds, holds_at, same, same_at};
use crate::refusals::full::{CHUNK, SIZES, arena_with};
use crate::refusals::words::{Case, key};
use judy_arena::{Arena, Block, NoMemory};
use judy_refs::Ref;
use std::alloc::{AllocError, Global};
use std::process::Abort;

/// What is inserted, entry by entry.
#[derive(Clone, Copy, Debug, PartialEq, Eq)]
pub(crate) enum Entries {
    /// The words of a case, with values or without.
    Words(Case, bool),
    /// These strings or byte keys.
    Texts(&'static [&'static [u8]]),
    /// The children of a branch.
    Children,
}

impl Entries {
    /// The word with this number, if words are inserted.
    pub(crate) fn word(self, number: u64) -> u64 {
        match self {
            Entries::Words(case, _) => key(case, number),
            Entries::Texts(_) | Entries::Children => number,
        }
    }

    /// Whether words have values.
    pub(crate) fn has_values(self) -> bool {
        match self {
            Entries::Words(_, values) => values,
            Entries::Texts(_) | Entries::Children => true,
        }
    }

    /// The string or byte key with this number, if there is one.
    pub(crate) fn text(self, number: u64) -> Option<&'static [u8]> {
        match self {
            Entries::Texts(texts) => texts.get(usize::try_from(number).ok()?).copied(),
            Entries::Words(_, _) | Entries::Children => None,
        }
    }
}

/// Entries in an arena of their own, numbered from 0 in the order of their insertion.
pub(crate) trait Grown: Sized + Drop {
    /// No entry yet, in an arena that may have other blocks.
    fn within(arena: Arena, entries: Entries) -> Self;

    /// Inserts the entry with this number: true if it is new.
    fn put(&mut self, alloc: Global, number: u64) -> Result<bool, NoMemory>;

    /// Whether the entry with this number is present, as it was inserted.
    fn has(&self, number: u64) -> bool;

    /// How many entries there are, if this can be asked.
    fn population(&self) -> Option<u64>;

    /// The arena.
    fn arena(&self) -> &Arena;

    /// Allocates a block that no entry uses and that is never released.
    fn take(&mut self, alloc: Global, len: usize) -> Result<(), NoMemory>;
}

/// An insertion to try.
#[derive(Clone, Copy, Debug, PartialEq, Eq)]
pub(crate) struct Trial {
    pub(crate) entries: Entries,
    /// How many entries there are before. The entry with this number is inserted.
    pub(crate) before: u64,
    /// The sizes in words of the blocks that the insertion takes, one after another, without those
    /// that it also releases.
    pub(crate) sizes: &'static [usize],
}

/// Allocates all free blocks, the greatest first. Returns how many there were of each size.
fn take_free<G: Grown>(
    rt: &impl Abort,
    alloc: Global,
    grown: &mut G,
) -> Result<[u32; 8], NoMemory> {
    let mut counts = [0u32; 8];
    for (count, size) in counts.iter_mut().zip(SIZES) {
        holds(rt, 1 <= size && size <= 512);
        for _ in 0..200u32 {
            if grown.arena().spare(size) {
                grown.take(alloc, size)?;
                *count = count.saturating_add(1);
            }
        }
    }
    Ok(counts)
}

/// Allocates this many blocks of each size.
fn take_counted<G: Grown>(
    rt: &impl Abort,
    alloc: Global,
    grown: &mut G,
    counts: [u32; 8],
) -> Result<(), NoMemory> {
    for (count, size) in counts.iter().zip(SIZES) {
        holds(rt, 1 <= size && size <= 512);
        for _ in 0..*count {
            grown.take(alloc, size)?;
        }
    }
    Ok(())
}

/// The entries before, in an arena that also has free blocks of these sizes.
fn entries_before<G: Grown>(
    rt: &impl Abort,
    alloc: Global,
    trial: Trial,
    sizes: &[usize],
) -> Result<G, NoMemory> {
    let mut grown = G::within(arena_with(rt, alloc, sizes)?, trial.entries);
    for number in 0..trial.before {
        holds_at(rt, grown.put(alloc, number)?, ("entry", number, "is new"));
    }
    Ok(grown)
}

/// The entries before, in an arena whose free blocks are exactly of these sizes.
fn prepare<G: Grown>(
    rt: &impl Abort,
    alloc: Global,
    trial: Trial,
    sizes: &[usize],
) -> Result<G, NoMemory> {
    let mut first: G = entries_before(rt, alloc, trial, &[])?;
    let counts = take_free(rt, alloc, &mut first)?;
    let mut grown: G = entries_before(rt, alloc, trial, sizes)?;
    take_counted(rt, alloc, &mut grown, counts)?;
    holds_at(rt, grown.arena().region() == CHUNK, "a full chunk");
    holds(rt, grown.arena().spare(4) != sizes.is_empty());
    Ok(grown)
}

/// How many numbers of blocks the first chunk has.
const NUMBERS: u32 = 16_384;

/// The block with this number, which need not be live.
fn numbered(number: u32) -> Option<Block> {
    Ref::read((1 << 32) | u64::from(number))?.block()
}

/// A number for these words in their order, and for what came before.
fn mixed(before: u64, words: &[u64]) -> u64 {
    let mut mix = before;
    for word in words {
        mix = mix.wrapping_mul(31).wrapping_add(*word).wrapping_add(1);
    }
    mix
}

/// A number for the words of all live blocks of the first chunk: of all arrays, and of the blocks that
/// no array uses.
fn all_words(arena: &Arena) -> u64 {
    let mut mix = 0u64;
    for number in 0..NUMBERS {
        if let Some(block) = numbered(number) {
            if arena.size(block) > 0 {
                mix = mixed(mix.wrapping_add(u64::from(number)), arena.words(block));
            }
        }
    }
    mix
}

/// Checks that the first `count` entries are present as they were inserted, and no others.
fn reads<G: Grown>(rt: &impl Abort, grown: &G, trial: Trial, count: u64, given: usize) {
    for number in 0..count {
        holds_at(
            rt,
            grown.has(number),
            (trial, "given", given, "entry", number),
        );
    }
    if count == trial.before {
        holds_at(
            rt,
            !grown.has(count),
            (trial, "given", given, "a refused entry is there"),
        );
    }
    if let Some(population) = grown.population() {
        same_at(rt, population, count, (trial, "given", given, "entries"));
    }
}

/// Turns refusals on, or off, by a request of a size that tests/shim.py knows.
fn refuse(alloc: Global, on: bool) {
    let size = if on { 4099 } else { 4093 };
    let _told: Result<Vec<u8>, AllocError> = Vec::with_capacity(alloc, size);
}

/// Inserts an entry when the first `given` of the blocks that it takes are free. The arena asks the
/// machine for the next one, if there is one. If the machine refuses, the refusal is counted once,
/// nothing else has changed, and the same call then succeeds. Only the requests of the insertion are
/// refused.
fn insert_given<G: Grown>(rt: &impl Abort, alloc: Global, trial: Trial, given: usize) {
    let sizes = trial.sizes;
    holds(rt, given <= sizes.len());
    refuse(alloc, false);
    let Ok(mut grown) = prepare::<G>(rt, alloc, trial, &sizes[..given]) else {
        return;
    };
    let (words, refusals) = (grown.arena().live_words(), grown.arena().refusals());
    let blocks = all_words(grown.arena());
    refuse(alloc, true);
    let mut answer = grown.put(alloc, trial.before);
    if answer.is_err() {
        holds_at(rt, given < sizes.len(), (trial, "given", given, "refused"));
        same_at(
            rt,
            grown.arena().live_words(),
            words,
            (trial, "given", given, "words"),
        );
        same_at(
            rt,
            all_words(grown.arena()),
            blocks,
            (trial, "given", given, "the words of all blocks"),
        );
        same(rt, grown.arena().refusals(), refusals.saturating_add(1));
        same(rt, grown.arena().region(), CHUNK);
        reads(rt, &grown, trial, trial.before, given);
        answer = grown.put(alloc, trial.before);
    }
    holds_at(
        rt,
        answer == Ok(true),
        (trial, "given", given, "not put in"),
    );
    holds_at(
        rt,
        (grown.arena().region() > CHUNK) == (given < sizes.len()),
        (trial, "given", given, "the machine is asked"),
    );
    reads(rt, &grown, trial, trial.before.saturating_add(1), given);
}

/// The insertion for each number of free blocks, from none to all that it takes.
pub(crate) fn insert_given_each<G: Grown>(rt: &impl Abort, alloc: Global, trial: Trial) {
    for given in 0..=trial.sizes.len() {
        insert_given::<G>(rt, alloc, trial, given);
    }
}
