//! Leaves when memory runs out, without values and with them.

use crate::refusals::full;
use crate::refusals::grown::{Entries, Grown, insert_given_each};
use crate::refusals::words::{Case, given, trial};
use judy_arena::{Arena, NoMemory};
use judy_leaf::Put;
use judy_refs::Ref;
use std::alloc::Global;

/// A leaf with values or without, and its arena.
#[derive(Drop)]
struct Leaf {
    arena: Arena,
    leaf: Ref,
    entries: Entries,
    values: bool,
}

impl Grown for Leaf {
    fn within(arena: Arena, entries: Entries) -> Leaf {
        Leaf {
            arena,
            leaf: Ref::EMPTY,
            entries,
            values: entries.has_values(),
        }
    }

    fn put(&mut self, alloc: Global, number: u64) -> Result<bool, NoMemory> {
        let key = self.entries.word(number);
        let value = given(self.values, key);
        let put = judy_leaf::insert(self.values, alloc, &mut self.arena, self.leaf, key, value);
        match put {
            Put::Done(leaf) => {
                self.leaf = leaf;
                Ok(true)
            }
            Put::Present(_) | Put::Split => Ok(false),
            Put::NoMemory => Err(NoMemory),
        }
    }

    fn has(&self, number: u64) -> bool {
        let key = self.entries.word(number);
        judy_leaf::get(self.values, &self.arena, self.leaf, key) == Some(given(self.values, key))
    }

    fn population(&self) -> Option<u64> {
        Some(judy_leaf::population(self.values, &self.arena, self.leaf))
    }

    fn arena(&self) -> &Arena {
        &self.arena
    }

    fn take(&mut self, alloc: Global, len: usize) -> Result<(), NoMemory> {
        full::take(alloc, &mut self.arena, len)
    }
}

#[test]
fn set_first_key(rt: HostRuntime) {
    insert_given_each::<Leaf>(&rt, rt.alloc(), trial(Case::First, false));
}

#[test]
fn set_fourth_key(rt: HostRuntime) {
    insert_given_each::<Leaf>(&rt, rt.alloc(), trial(Case::Fourth, false));
}

#[test]
fn set_becomes_a_bitmap(rt: HostRuntime) {
    insert_given_each::<Leaf>(&rt, rt.alloc(), trial(Case::Bitmap, false));
}

#[test]
fn set_wider_bitmap(rt: HostRuntime) {
    insert_given_each::<Leaf>(&rt, rt.alloc(), trial(Case::Wider, false));
}

#[test]
fn map_first_key(rt: HostRuntime) {
    insert_given_each::<Leaf>(&rt, rt.alloc(), trial(Case::First, true));
}

#[test]
fn map_fourth_key(rt: HostRuntime) {
    insert_given_each::<Leaf>(&rt, rt.alloc(), trial(Case::Fourth, true));
}

#[test]
fn map_becomes_a_bitmap(rt: HostRuntime) {
    insert_given_each::<Leaf>(&rt, rt.alloc(), trial(Case::Bitmap, true));
}

#[test]
fn map_wider_bitmap(rt: HostRuntime) {
    insert_given_each::<Leaf>(&rt, rt.alloc(), trial(Case::Wider, true));
}
