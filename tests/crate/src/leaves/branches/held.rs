//! A branch in an arena of its own.

use judy_arena::{Arena, NoMemory};
use judy_branch::{
    Head, Taken, child, head, last_child, level, make, next_child, population, prefix, prev_child,
    put_child, release, set_child, slots, take_child,
};
use judy_refs::Ref;
use std::alloc::Global;

/// A branch with its arena.
#[derive(Drop)]
pub(crate) struct Held {
    arena: Arena,
    branch: Ref,
}

/// What a removal leaves: the branch, or one child's word and this many live words.
#[derive(Drop)]
pub(crate) enum Left {
    Branch(Held),
    Only(u64, u64),
}

/// The reference of a word, if it refers to a block.
pub(crate) fn reference_of(word: u64) -> Option<Ref> {
    if word == 0 {
        return None;
    }
    Ref::read(word)
}

impl Held {
    /// A branch of level 3 with two children and 2 keys. If memory is refused, no block is left,
    /// and a second try succeeds.
    pub(crate) fn of_two(
        alloc: Global,
        at: u64,
        low: (u8, Ref),
        high: (u8, Ref),
    ) -> Result<Held, NoMemory> {
        let mut arena = Arena::new(alloc);
        let children = [low, high];
        if let Ok(branch) = make(alloc, &mut arena, 3, at, &children, 2) {
            return Ok(Held { arena, branch });
        }
        let branch = make(alloc, &mut arena, 3, at, &children, 2)?;
        Ok(Held { arena, branch })
    }

    pub(crate) fn words(&self) -> u64 {
        self.arena.live_words()
    }

    pub(crate) fn refusals(&self) -> u64 {
        self.arena.refusals()
    }

    /// The head, read at once, and whether the three readers of its parts agree with it.
    pub(crate) fn head(&self) -> (Head, bool) {
        let head = head(&self.arena, self.branch);
        let same = head.level == level(&self.arena, self.branch)
            && head.prefix == prefix(&self.arena, self.branch)
            && head.population == population(&self.arena, self.branch);
        (head, same)
    }

    pub(crate) fn child(&self, byte: u8) -> Option<Ref> {
        child(&self.arena, self.branch, byte)
    }

    pub(crate) fn next_child(&self, byte: u8) -> Option<(u8, Ref)> {
        next_child(&self.arena, self.branch, byte)
    }

    pub(crate) fn prev_child(&self, byte: u8) -> Option<(u8, Ref)> {
        prev_child(&self.arena, self.branch, byte)
    }

    pub(crate) fn last_child(&self) -> (u8, Ref) {
        last_child(&self.arena, self.branch)
    }

    pub(crate) fn child_count(&self) -> usize {
        let mut count = 0usize;
        for word in slots(&self.arena, self.branch) {
            if *word != 0 {
                count = count.saturating_add(1);
            }
        }
        count
    }

    /// Inserts a child at a byte that has none. None if the byte has one.
    pub(crate) fn put(
        &mut self,
        alloc: Global,
        byte: u8,
        given: Ref,
        population: u64,
    ) -> Option<Result<(), NoMemory>> {
        if child(&self.arena, self.branch, byte).is_some() {
            return None;
        }
        match put_child(alloc, &mut self.arena, self.branch, byte, given, population) {
            Ok(branch) => {
                self.branch = branch;
                Some(Ok(()))
            }
            Err(refused) => Some(Err(refused)),
        }
    }

    /// Replaces the child of a byte. False if it has none.
    pub(crate) fn set(&mut self, byte: u8, given: Ref, population: u64) -> bool {
        if child(&self.arena, self.branch, byte).is_none() {
            return false;
        }
        set_child(&mut self.arena, self.branch, byte, given, population);
        true
    }

    /// Removes the child of a byte. None if it has none.
    pub(crate) fn take(self, byte: u8, population: u64) -> Option<Left> {
        if child(&self.arena, self.branch, byte).is_none() {
            return None;
        }
        let Held { mut arena, branch } = self;
        match take_child(&mut arena, branch, byte, population) {
            Taken::Branch(branch) => Some(Left::Branch(Held { arena, branch })),
            Taken::Only(child) => Some(Left::Only(child.word(), arena.live_words())),
        }
    }

    /// Releases the branch. Returns how many words are then live.
    pub(crate) fn release(self) -> u64 {
        let Held { mut arena, branch } = self;
        release(&mut arena, branch);
        arena.live_words()
    }
}
