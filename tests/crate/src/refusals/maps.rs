//! JudyL when memory runs out.

use crate::refusals::full;
use crate::refusals::grown::{Entries, Grown, insert_given_each};
use crate::refusals::words::{Case, given, trial};
use judy_arena::{Arena, NoMemory};
use judy_words::JudyL;
use std::alloc::Global;

/// A JudyL with its arena.
#[derive(Drop)]
struct Map {
    arena: Arena,
    map: JudyL,
    entries: Entries,
}

impl Grown for Map {
    fn within(arena: Arena, entries: Entries) -> Map {
        Map {
            arena,
            map: JudyL::new(),
            entries,
        }
    }

    fn put(&mut self, alloc: Global, number: u64) -> Result<bool, NoMemory> {
        let key = self.entries.word(number);
        let answer = self.map.insert(alloc, &mut self.arena, key)?;
        self.map.write(&mut self.arena, key, given(true, key));
        Ok(answer.before.is_none())
    }

    fn has(&self, number: u64) -> bool {
        let key = self.entries.word(number);
        self.map.get(&self.arena, key) == Some(given(true, key))
    }

    fn population(&self) -> Option<u64> {
        Some(self.map.population(&self.arena))
    }

    fn arena(&self) -> &Arena {
        &self.arena
    }

    fn take(&mut self, alloc: Global, len: usize) -> Result<(), NoMemory> {
        full::take(alloc, &mut self.arena, len)
    }
}

#[test]
fn first_key(rt: HostRuntime) {
    insert_given_each::<Map>(&rt, rt.alloc(), trial(Case::First, true));
}

#[test]
fn fourth_key(rt: HostRuntime) {
    insert_given_each::<Map>(&rt, rt.alloc(), trial(Case::Fourth, true));
}

#[test]
fn becomes_a_bitmap(rt: HostRuntime) {
    insert_given_each::<Map>(&rt, rt.alloc(), trial(Case::Bitmap, true));
}

#[test]
fn wider_bitmap(rt: HostRuntime) {
    insert_given_each::<Map>(&rt, rt.alloc(), trial(Case::Wider, true));
}

#[test]
fn split(rt: HostRuntime) {
    insert_given_each::<Map>(&rt, rt.alloc(), trial(Case::Split, true));
}

#[test]
fn above_a_leaf(rt: HostRuntime) {
    insert_given_each::<Map>(&rt, rt.alloc(), trial(Case::AboveLeaf, true));
}

#[test]
fn above_a_branch(rt: HostRuntime) {
    insert_given_each::<Map>(&rt, rt.alloc(), trial(Case::AboveBranch, true));
}

#[test]
fn fifth_child(rt: HostRuntime) {
    insert_given_each::<Map>(&rt, rt.alloc(), trial(Case::FifthChild, true));
}

#[test]
fn ninth_child(rt: HostRuntime) {
    insert_given_each::<Map>(&rt, rt.alloc(), trial(Case::NinthChild, true));
}

#[test]
fn tenth_child(rt: HostRuntime) {
    insert_given_each::<Map>(&rt, rt.alloc(), trial(Case::TenthChild, true));
}

#[test]
fn wide_child(rt: HostRuntime) {
    insert_given_each::<Map>(&rt, rt.alloc(), trial(Case::WideChild, true));
}
