//! A leaf in an arena of its own.

use judy_arena::Arena;
use judy_leaf::{
    Put, Removed, count, find, first_empty, first_entry, get, insert, key_at, last_empty,
    last_entry, nth, part, population, release, remove, single, write,
};
use judy_refs::{Kind, Ref};
use std::alloc::Global;

/// A leaf with values or without, and its arena.
#[derive(Drop)]
pub(crate) struct Held {
    arena: Arena,
    leaf: Ref,
    values: bool,
}

/// What a part of a leaf has: how many keys, the first, the last, and the last one's value.
#[derive(Clone, Copy, Debug, PartialEq, Eq)]
pub(crate) struct Part {
    pub(crate) population: u64,
    pub(crate) first: u64,
    pub(crate) last: u64,
    pub(crate) value: Option<u64>,
}

/// The value of a key in a map, and 0 in a set.
pub(crate) fn given(values: bool, value: u64) -> u64 {
    if values { value } else { 0 }
}

impl Held {
    /// The empty leaf.
    pub(crate) fn new(alloc: Global, values: bool) -> Held {
        Held {
            arena: Arena::new(alloc),
            leaf: Ref::EMPTY,
            values,
        }
    }

    pub(crate) fn has_values(&self) -> bool {
        self.values
    }

    pub(crate) fn kind(&self) -> Option<Kind> {
        self.leaf.kind()
    }

    pub(crate) fn words(&self) -> u64 {
        self.arena.live_words()
    }

    pub(crate) fn refusals(&self) -> u64 {
        self.arena.refusals()
    }

    pub(crate) fn insert(&mut self, alloc: Global, key: u64, value: u64) -> Put {
        let value = given(self.values, value);
        let answer = insert(self.values, alloc, &mut self.arena, self.leaf, key, value);
        match answer {
            Put::Done(leaf) => {
                self.leaf = leaf;
                Put::Done(leaf)
            }
            Put::Present(was) => Put::Present(was),
            Put::Split => Put::Split,
            Put::NoMemory => Put::NoMemory,
        }
    }

    pub(crate) fn remove(&mut self, key: u64) -> Removed {
        let answer = remove(self.values, &mut self.arena, self.leaf, key);
        match answer {
            Removed::Left(leaf, was) => {
                self.leaf = leaf;
                Removed::Left(leaf, was)
            }
            Removed::Emptied(was) => {
                self.leaf = Ref::EMPTY;
                Removed::Emptied(was)
            }
            Removed::Absent => Removed::Absent,
        }
    }

    /// Writes the value of a key. False if the leaf has no values, or no such key.
    pub(crate) fn write(&mut self, key: u64, value: u64) -> bool {
        if !self.values {
            return false;
        }
        match get(true, &self.arena, self.leaf, key) {
            Some(_) => {
                write(&mut self.arena, self.leaf, key, value);
                true
            }
            None => false,
        }
    }

    /// Makes another leaf of one key, reads it, and releases it. None if out of memory.
    pub(crate) fn single(&mut self, alloc: Global, key: u64, value: u64) -> Option<Part> {
        let value = given(self.values, value);
        let Ok(made) = single(self.values, alloc, &mut self.arena, key, value) else {
            return None;
        };
        let seen = Part {
            population: population(self.values, &self.arena, made),
            first: key_at(self.values, &self.arena, made, 0),
            last: key,
            value: get(self.values, &self.arena, made, key),
        };
        release(self.values, &mut self.arena, made);
        Some(seen)
    }

    /// Makes a leaf of some of the entries, reads it, and releases it. None if there are not this
    /// many entries, or if out of memory.
    pub(crate) fn part(&mut self, alloc: Global, from: u64, len: u64) -> Option<Part> {
        let here = population(self.values, &self.arena, self.leaf);
        if len == 0 || len > 31 || from > 256 || from + len > here {
            return None;
        }
        let Ok(made) = part(self.values, alloc, &mut self.arena, self.leaf, from, len) else {
            return None;
        };
        let last = key_at(self.values, &self.arena, made, len - 1);
        let seen = Part {
            population: population(self.values, &self.arena, made),
            first: key_at(self.values, &self.arena, made, 0),
            last,
            value: get(self.values, &self.arena, made, last),
        };
        release(self.values, &mut self.arena, made);
        Some(seen)
    }

    pub(crate) fn get(&self, key: u64) -> Option<u64> {
        get(self.values, &self.arena, self.leaf, key)
    }

    pub(crate) fn find(&self, key: u64) -> Option<u64> {
        find(self.values, &self.arena, self.leaf, key)
    }

    pub(crate) fn nth(&self, rank: u64) -> Option<u64> {
        nth(self.values, &self.arena, self.leaf, rank)
    }

    /// The key at this place. None if there are not this many.
    pub(crate) fn key_at(&self, place: u64) -> Option<u64> {
        if place >= population(self.values, &self.arena, self.leaf) {
            return None;
        }
        Some(key_at(self.values, &self.arena, self.leaf, place))
    }

    pub(crate) fn population(&self) -> u64 {
        population(self.values, &self.arena, self.leaf)
    }

    pub(crate) fn count(&self, a: u64, b: u64) -> u64 {
        count(self.values, &self.arena, self.leaf, a, b)
    }

    pub(crate) fn first_entry(&self, x: u64) -> Option<(u64, u64)> {
        first_entry(self.values, &self.arena, self.leaf, x)
    }

    pub(crate) fn last_entry(&self, x: u64) -> Option<(u64, u64)> {
        last_entry(self.values, &self.arena, self.leaf, x)
    }

    pub(crate) fn first_empty(&self, x: u64) -> Option<u64> {
        first_empty(self.values, &self.arena, self.leaf, x)
    }

    pub(crate) fn last_empty(&self, x: u64) -> Option<u64> {
        last_empty(self.values, &self.arena, self.leaf, x)
    }
}
