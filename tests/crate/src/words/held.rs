//! A set in an arena of its own, with every query.
use judy_arena::{Arena, NoMemory};
use judy_query::{
    by_count, count, first_empty, first_entry, last_empty, last_entry, next_empty, next_entry,
    prev_empty, prev_entry,
};
use judy_tree::{Root, laws};
use std::alloc::Global;

/// A set with its arena.
#[derive(Drop)]
pub(crate) struct Held {
    arena: Arena,
    root: Root<false>,
}

fn key_of(entry: Option<(u64, u64)>) -> Option<u64> {
    Some(entry?.0)
}

impl Held {
    /// The empty set.
    pub(crate) fn new(alloc: Global) -> Held {
        laws::only_nothing_is_empty();
        Held {
            arena: Arena::new(alloc),
            root: Root::new(),
        }
    }

    pub(crate) fn insert(&mut self, alloc: Global, key: u64) -> Result<(), NoMemory> {
        let _found = self.root.insert(alloc, &mut self.arena, key)?;
        Ok(())
    }

    pub(crate) fn count(&self, a: u64, b: u64) -> u64 {
        count(&self.arena, &self.root, a, b)
    }

    pub(crate) fn by_count(&self, n: u64) -> Option<u64> {
        by_count(&self.arena, &self.root, n)
    }

    /// The four neighbours of a word, in the order of the manual: first, next, last, prev.
    pub(crate) fn neighbours(&self, x: u64) -> [Option<u64>; 4] {
        [
            key_of(first_entry(&self.arena, &self.root, x)),
            key_of(next_entry(&self.arena, &self.root, x)),
            key_of(last_entry(&self.arena, &self.root, x)),
            key_of(prev_entry(&self.arena, &self.root, x)),
        ]
    }

    /// The four gaps next to a word, in the same order.
    pub(crate) fn gaps(&self, x: u64) -> [Option<u64>; 4] {
        [
            first_empty(&self.arena, &self.root, x),
            next_empty(&self.arena, &self.root, x),
            last_empty(&self.arena, &self.root, x),
            prev_empty(&self.arena, &self.root, x),
        ]
    }

    /// The words of all live blocks.
    pub(crate) fn words(&self) -> u64 {
        self.arena.live_words()
    }

    pub(crate) fn refusals(&self) -> u64 {
        self.arena.refusals()
    }
}
