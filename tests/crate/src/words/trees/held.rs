//! A set and a map, each in an arena of its own.
use judy_arena::{Arena, NoMemory};
use judy_tree::{Root, laws};
use std::alloc::Global;

/// A set with its arena.
#[derive(Drop)]
pub(crate) struct HeldSet {
    arena: Arena,
    root: Root<false>,
}

impl HeldSet {
    /// The empty set.
    pub(crate) fn new(alloc: Global) -> HeldSet {
        laws::only_nothing_is_empty();
        HeldSet {
            arena: Arena::new(alloc),
            root: Root::new(),
        }
    }

    pub(crate) fn insert(&mut self, alloc: Global, key: u64) -> Result<Option<u64>, NoMemory> {
        let answer = self.root.insert(alloc, &mut self.arena, key)?;
        Ok(answer.before)
    }

    pub(crate) fn remove(&mut self, key: u64) -> Option<u64> {
        self.root.remove(&mut self.arena, key)
    }

    pub(crate) fn get(&self, key: u64) -> Option<u64> {
        self.root.get(&self.arena, key)
    }

    pub(crate) fn population(&self) -> u64 {
        self.root.population(&self.arena)
    }

    pub(crate) fn clear(&mut self) -> u64 {
        self.root.clear(&mut self.arena)
    }

    pub(crate) fn words(&self) -> u64 {
        self.arena.live_words()
    }

    pub(crate) fn refusals(&self) -> u64 {
        self.arena.refusals()
    }
}

/// A map with its arena.
#[derive(Drop)]
pub(crate) struct HeldMap {
    arena: Arena,
    root: Root<true>,
}

impl HeldMap {
    /// The empty map.
    pub(crate) fn new(alloc: Global) -> HeldMap {
        laws::only_nothing_is_empty();
        HeldMap {
            arena: Arena::new(alloc),
            root: Root::new(),
        }
    }

    pub(crate) fn insert(
        &mut self,
        alloc: Global,
        key: u64,
        value: u64,
    ) -> Result<Option<u64>, NoMemory> {
        let answer = self.root.insert_given(alloc, &mut self.arena, key, value)?;
        Ok(answer.before)
    }

    /// Writes the value of a key, if it is present.
    pub(crate) fn write(&mut self, key: u64, value: u64) {
        if self.root.get(&self.arena, key).is_some() {
            self.root.write(&mut self.arena, key, value);
        }
    }

    pub(crate) fn remove(&mut self, key: u64) -> Option<u64> {
        self.root.remove(&mut self.arena, key)
    }

    pub(crate) fn get(&self, key: u64) -> Option<u64> {
        self.root.get(&self.arena, key)
    }

    pub(crate) fn population(&self) -> u64 {
        self.root.population(&self.arena)
    }

    pub(crate) fn clear(&mut self) -> u64 {
        self.root.clear(&mut self.arena)
    }

    pub(crate) fn words(&self) -> u64 {
        self.arena.live_words()
    }

    pub(crate) fn refusals(&self) -> u64 {
        self.arena.refusals()
    }
}
