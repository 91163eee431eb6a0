//! For tests: a map with its arena.
use crate::checks::{holds, same, same_at};
use arrayvec::ArrayVec;
use judy_arena::Arena;
use judy_model::{Given, KEY_LIMIT};
use judy_string::{JudySL, is_string};
use std::alloc::Global;
use std::process::Abort;

/// A map and its arena.
#[derive(Drop)]
pub(crate) struct Held {
    arena: Arena,
    map: JudySL,
}

impl Held {
    /// An empty map.
    pub(crate) fn new(alloc: Global) -> Held {
        Held {
            arena: Arena::new(alloc),
            map: JudySL::new(),
        }
    }

    /// Inserts a string, and returns its value before. If memory is refused, nothing has changed.
    /// If at most one request is refused, a second try succeeds.
    pub(crate) fn insert(
        &mut self,
        rt: &impl Abort,
        alloc: Global,
        key: &[u8],
        given: Given,
    ) -> Option<u64> {
        holds(rt, is_string(key));
        let words = self.arena.live_words();
        let refusals = self.arena.refusals();
        if let Ok(answer) = self.map.insert(alloc, &mut self.arena, key, given) {
            return answer.before;
        }
        same_at(rt, self.arena.live_words(), words, "words after a refusal");
        same(rt, self.arena.refusals(), refusals.saturating_add(1));
        let again = self.map.insert(alloc, &mut self.arena, key, given);
        again.expect(rt, "one request at most is refused").before
    }

    /// Writes the value of a present string.
    pub(crate) fn write(&mut self, rt: &impl Abort, key: &[u8], value: u64) {
        holds(rt, is_string(key));
        holds(rt, self.map.get(&self.arena, key).is_some());
        self.map.write(&mut self.arena, key, value);
    }

    pub(crate) fn get(&self, rt: &impl Abort, key: &[u8]) -> Option<u64> {
        holds(rt, is_string(key));
        self.map.get(&self.arena, key)
    }

    pub(crate) fn delete(&mut self, rt: &impl Abort, key: &[u8]) -> bool {
        holds(rt, is_string(key));
        self.map.delete(&mut self.arena, key)
    }

    pub(crate) fn clear(&mut self) -> u64 {
        self.map.clear(&mut self.arena)
    }

    pub(crate) fn first(
        &self,
        rt: &impl Abort,
        key: &[u8],
        buffer: &mut ArrayVec<u8, KEY_LIMIT>,
    ) -> Option<u64> {
        holds(rt, is_string(key));
        self.map.first(&self.arena, key, buffer)
    }

    pub(crate) fn next(
        &self,
        rt: &impl Abort,
        key: &[u8],
        buffer: &mut ArrayVec<u8, KEY_LIMIT>,
    ) -> Option<u64> {
        holds(rt, is_string(key));
        self.map.next(&self.arena, key, buffer)
    }

    pub(crate) fn last(
        &self,
        rt: &impl Abort,
        key: &[u8],
        buffer: &mut ArrayVec<u8, KEY_LIMIT>,
    ) -> Option<u64> {
        holds(rt, is_string(key));
        self.map.last(&self.arena, key, buffer)
    }

    pub(crate) fn prev(
        &self,
        rt: &impl Abort,
        key: &[u8],
        buffer: &mut ArrayVec<u8, KEY_LIMIT>,
    ) -> Option<u64> {
        holds(rt, is_string(key));
        self.map.prev(&self.arena, key, buffer)
    }

    /// The words of all live blocks.
    pub(crate) fn live_words(&self) -> u64 {
        self.arena.live_words()
    }
}
