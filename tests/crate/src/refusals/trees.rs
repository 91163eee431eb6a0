//! Trees of words when memory runs out, without values and with them.

use crate::refusals::full;
use crate::refusals::grown::{Entries, Grown, insert_given_each};
use crate::refusals::words::{Case, given, trial};
use judy_arena::{Arena, NoMemory};
use judy_tree::Root;
use std::alloc::Global;

/// A tree without values, with its arena.
#[derive(Drop)]
struct TreeSet {
    arena: Arena,
    root: Root<false>,
    entries: Entries,
}

impl Grown for TreeSet {
    fn within(arena: Arena, entries: Entries) -> TreeSet {
        TreeSet {
            arena,
            root: Root::new(),
            entries,
        }
    }

    fn put(&mut self, alloc: Global, number: u64) -> Result<bool, NoMemory> {
        let key = self.entries.word(number);
        let answer = self.root.insert(alloc, &mut self.arena, key)?;
        Ok(answer.before.is_none())
    }

    fn has(&self, number: u64) -> bool {
        self.root.get(&self.arena, self.entries.word(number)) == Some(0)
    }

    fn population(&self) -> Option<u64> {
        Some(self.root.population(&self.arena))
    }

    fn arena(&self) -> &Arena {
        &self.arena
    }

    fn take(&mut self, alloc: Global, len: usize) -> Result<(), NoMemory> {
        full::take(alloc, &mut self.arena, len)
    }
}

/// A tree with values, with its arena.
#[derive(Drop)]
struct TreeMap {
    arena: Arena,
    root: Root<true>,
    entries: Entries,
}

impl Grown for TreeMap {
    fn within(arena: Arena, entries: Entries) -> TreeMap {
        TreeMap {
            arena,
            root: Root::new(),
            entries,
        }
    }

    fn put(&mut self, alloc: Global, number: u64) -> Result<bool, NoMemory> {
        let key = self.entries.word(number);
        let value = given(true, key);
        let answer = self.root.insert_given(alloc, &mut self.arena, key, value)?;
        Ok(answer.before.is_none())
    }

    fn has(&self, number: u64) -> bool {
        let key = self.entries.word(number);
        self.root.get(&self.arena, key) == Some(given(true, key))
    }

    fn population(&self) -> Option<u64> {
        Some(self.root.population(&self.arena))
    }

    fn arena(&self) -> &Arena {
        &self.arena
    }

    fn take(&mut self, alloc: Global, len: usize) -> Result<(), NoMemory> {
        full::take(alloc, &mut self.arena, len)
    }
}

#[test]
fn set_first_key(rt: HostRuntime) {
    insert_given_each::<TreeSet>(&rt, rt.alloc(), trial(Case::First, false));
}

#[test]
fn set_fourth_key(rt: HostRuntime) {
    insert_given_each::<TreeSet>(&rt, rt.alloc(), trial(Case::Fourth, false));
}

#[test]
fn set_becomes_a_bitmap(rt: HostRuntime) {
    insert_given_each::<TreeSet>(&rt, rt.alloc(), trial(Case::Bitmap, false));
}

#[test]
fn set_wider_bitmap(rt: HostRuntime) {
    insert_given_each::<TreeSet>(&rt, rt.alloc(), trial(Case::Wider, false));
}

#[test]
fn set_split(rt: HostRuntime) {
    insert_given_each::<TreeSet>(&rt, rt.alloc(), trial(Case::Split, false));
}

#[test]
fn set_above_a_leaf(rt: HostRuntime) {
    insert_given_each::<TreeSet>(&rt, rt.alloc(), trial(Case::AboveLeaf, false));
}

#[test]
fn set_above_a_branch(rt: HostRuntime) {
    insert_given_each::<TreeSet>(&rt, rt.alloc(), trial(Case::AboveBranch, false));
}

#[test]
fn set_fifth_child(rt: HostRuntime) {
    insert_given_each::<TreeSet>(&rt, rt.alloc(), trial(Case::FifthChild, false));
}

#[test]
fn set_ninth_child(rt: HostRuntime) {
    insert_given_each::<TreeSet>(&rt, rt.alloc(), trial(Case::NinthChild, false));
}

#[test]
fn set_tenth_child(rt: HostRuntime) {
    insert_given_each::<TreeSet>(&rt, rt.alloc(), trial(Case::TenthChild, false));
}

#[test]
fn set_wide_child(rt: HostRuntime) {
    insert_given_each::<TreeSet>(&rt, rt.alloc(), trial(Case::WideChild, false));
}

#[test]
fn map_first_key(rt: HostRuntime) {
    insert_given_each::<TreeMap>(&rt, rt.alloc(), trial(Case::First, true));
}

#[test]
fn map_fourth_key(rt: HostRuntime) {
    insert_given_each::<TreeMap>(&rt, rt.alloc(), trial(Case::Fourth, true));
}

#[test]
fn map_becomes_a_bitmap(rt: HostRuntime) {
    insert_given_each::<TreeMap>(&rt, rt.alloc(), trial(Case::Bitmap, true));
}

#[test]
fn map_wider_bitmap(rt: HostRuntime) {
    insert_given_each::<TreeMap>(&rt, rt.alloc(), trial(Case::Wider, true));
}

#[test]
fn map_split(rt: HostRuntime) {
    insert_given_each::<TreeMap>(&rt, rt.alloc(), trial(Case::Split, true));
}

#[test]
fn map_above_a_leaf(rt: HostRuntime) {
    insert_given_each::<TreeMap>(&rt, rt.alloc(), trial(Case::AboveLeaf, true));
}

#[test]
fn map_above_a_branch(rt: HostRuntime) {
    insert_given_each::<TreeMap>(&rt, rt.alloc(), trial(Case::AboveBranch, true));
}

#[test]
fn map_fifth_child(rt: HostRuntime) {
    insert_given_each::<TreeMap>(&rt, rt.alloc(), trial(Case::FifthChild, true));
}

#[test]
fn map_ninth_child(rt: HostRuntime) {
    insert_given_each::<TreeMap>(&rt, rt.alloc(), trial(Case::NinthChild, true));
}

#[test]
fn map_tenth_child(rt: HostRuntime) {
    insert_given_each::<TreeMap>(&rt, rt.alloc(), trial(Case::TenthChild, true));
}

#[test]
fn map_wide_child(rt: HostRuntime) {
    insert_given_each::<TreeMap>(&rt, rt.alloc(), trial(Case::WideChild, true));
}
