//! Judy1 when memory runs out.

use crate::refusals::full;
use crate::refusals::grown::{Entries, Grown, insert_given_each};
use crate::refusals::words::{Case, trial};
use judy_arena::{Arena, NoMemory};
use judy_words::Judy1;
use std::alloc::Global;

/// A set with its arena.
#[derive(Drop)]
struct Set {
    arena: Arena,
    set: Judy1,
    entries: Entries,
}

impl Grown for Set {
    fn within(arena: Arena, entries: Entries) -> Set {
        Set {
            arena,
            set: Judy1::new(),
            entries,
        }
    }

    fn put(&mut self, alloc: Global, number: u64) -> Result<bool, NoMemory> {
        self.set
            .set(alloc, &mut self.arena, self.entries.word(number))
    }

    fn has(&self, number: u64) -> bool {
        self.set.test(&self.arena, self.entries.word(number))
    }

    fn population(&self) -> Option<u64> {
        Some(self.set.population(&self.arena))
    }

    fn arena(&self) -> &Arena {
        &self.arena
    }

    fn take(&mut self, alloc: Global, len: usize) -> Result<(), NoMemory> {
        full::take(alloc, &mut self.arena, len)
    }
}

#[test]
fn first_key(rt: HostRuntime) {
    insert_given_each::<Set>(&rt, rt.alloc(), trial(Case::First, false));
}

#[test]
fn fourth_key(rt: HostRuntime) {
    insert_given_each::<Set>(&rt, rt.alloc(), trial(Case::Fourth, false));
}

#[test]
fn becomes_a_bitmap(rt: HostRuntime) {
    insert_given_each::<Set>(&rt, rt.alloc(), trial(Case::Bitmap, false));
}

#[test]
fn wider_bitmap(rt: HostRuntime) {
    insert_given_each::<Set>(&rt, rt.alloc(), trial(Case::Wider, false));
}

#[test]
fn split(rt: HostRuntime) {
    insert_given_each::<Set>(&rt, rt.alloc(), trial(Case::Split, false));
}

#[test]
fn above_a_leaf(rt: HostRuntime) {
    insert_given_each::<Set>(&rt, rt.alloc(), trial(Case::AboveLeaf, false));
}

#[test]
fn above_a_branch(rt: HostRuntime) {
    insert_given_each::<Set>(&rt, rt.alloc(), trial(Case::AboveBranch, false));
}

#[test]
fn fifth_child(rt: HostRuntime) {
    insert_given_each::<Set>(&rt, rt.alloc(), trial(Case::FifthChild, false));
}

#[test]
fn ninth_child(rt: HostRuntime) {
    insert_given_each::<Set>(&rt, rt.alloc(), trial(Case::NinthChild, false));
}

#[test]
fn tenth_child(rt: HostRuntime) {
    insert_given_each::<Set>(&rt, rt.alloc(), trial(Case::TenthChild, false));
}

#[test]
fn wide_child(rt: HostRuntime) {
    insert_given_each::<Set>(&rt, rt.alloc(), trial(Case::WideChild, false));
}
