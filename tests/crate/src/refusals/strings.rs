//! JudySL when memory runs out.

use crate::refusals::full;
use crate::refusals::grown::{Entries, Grown, Trial, insert_given_each};
use judy_arena::{Arena, NoMemory};
use judy_model::Given;
use judy_string::{JudySL, is_string};
use std::alloc::Global;

/// A JudySL with its arena.
#[derive(Drop)]
struct Map {
    arena: Arena,
    map: JudySL,
    entries: Entries,
}

/// The string of a number, if there is one and a map can hold it.
fn string(entries: Entries, number: u64) -> Option<&'static [u8]> {
    let string = entries.text(number)?;
    if is_string(string) {
        Some(string)
    } else {
        None
    }
}

/// The value of the string of a number.
fn value_of(number: u64) -> u64 {
    number.wrapping_mul(7).wrapping_add(1)
}

impl Grown for Map {
    fn within(arena: Arena, entries: Entries) -> Map {
        Map {
            arena,
            map: JudySL::new(),
            entries,
        }
    }

    fn put(&mut self, alloc: Global, number: u64) -> Result<bool, NoMemory> {
        let Some(string) = string(self.entries, number) else {
            return Ok(false);
        };
        let value = Given::Value(value_of(number));
        let answer = self.map.insert(alloc, &mut self.arena, string, value)?;
        Ok(answer.before.is_none())
    }

    fn has(&self, number: u64) -> bool {
        match string(self.entries, number) {
            Some(string) => self.map.get(&self.arena, string) == Some(value_of(number)),
            None => false,
        }
    }

    fn population(&self) -> Option<u64> {
        None
    }

    fn arena(&self) -> &Arena {
        &self.arena
    }

    fn take(&mut self, alloc: Global, len: usize) -> Result<(), NoMemory> {
        full::take(alloc, &mut self.arena, len)
    }
}

/// The insertion of the last of some strings.
fn last(strings: &'static [&'static [u8]], sizes: &'static [usize]) -> Trial {
    Trial {
        entries: Entries::Texts(strings),
        before: (strings.len() as u64).saturating_sub(1),
        sizes,
    }
}

#[test]
fn first_string_of_one_word(rt: HostRuntime) {
    insert_given_each::<Map>(&rt, rt.alloc(), last(&[b"a"], &[4]));
}

#[test]
fn empty_string(rt: HostRuntime) {
    insert_given_each::<Map>(&rt, rt.alloc(), last(&[b""], &[4]));
}

#[test]
fn second_string_of_one_word(rt: HostRuntime) {
    insert_given_each::<Map>(&rt, rt.alloc(), last(&[b"a", b"b"], &[8]));
}

#[test]
fn first_chain(rt: HostRuntime) {
    insert_given_each::<Map>(
        &rt,
        rt.alloc(),
        last(&[b"aaaaaaaaaaaaaaaaaaaaaaaa"], &[4, 4]),
    );
}

#[test]
fn first_chain_of_eight_bytes(rt: HostRuntime) {
    insert_given_each::<Map>(&rt, rt.alloc(), last(&[b"aaaaaaaa"], &[4, 4]));
}

#[test]
fn longer_suffix(rt: HostRuntime) {
    insert_given_each::<Map>(
        &rt,
        rt.alloc(),
        last(&[b"aaaaaaaabbbbbbbbccccccccddddddddeeeeeeee"], &[8, 4]),
    );
}

#[test]
fn second_chain_in_an_array(rt: HostRuntime) {
    insert_given_each::<Map>(
        &rt,
        rt.alloc(),
        last(&[b"aaaaaaaabbbb", b"ccccccccdddd"], &[4, 8]),
    );
}

#[test]
fn fork_of_a_suffix(rt: HostRuntime) {
    insert_given_each::<Map>(
        &rt,
        rt.alloc(),
        last(
            &[b"aaaaaaaaaaaaaaaaaaaaaaaa", b"aaaaaaaabbbbbbbbbbbbbbbb"],
            &[4, 4, 4, 8],
        ),
    );
}

#[test]
fn fork_at_the_end_of_a_string(rt: HostRuntime) {
    insert_given_each::<Map>(
        &rt,
        rt.alloc(),
        last(&[b"aaaaaaaabbbbbbbb", b"aaaaaaaab"], &[4, 4, 8]),
    );
}

#[test]
fn fork_three_words_deep(rt: HostRuntime) {
    insert_given_each::<Map>(
        &rt,
        rt.alloc(),
        last(
            &[
                b"aaaaaaaabbbbbbbbccccccccddddddddeeeeeeee",
                b"aaaaaaaabbbbbbbbccccccccffffffffgggggggg",
            ],
            &[4, 4, 4, 8, 4],
        ),
    );
}

#[test]
fn fourth_string_below_a_fork(rt: HostRuntime) {
    insert_given_each::<Map>(
        &rt,
        rt.alloc(),
        last(
            &[
                b"aaaaaaaabbbbbbbb",
                b"aaaaaaaacccccccc",
                b"aaaaaaaadddddddd",
                b"aaaaaaaaeeeeeeee",
            ],
            &[4, 16],
        ),
    );
}

#[test]
fn chain_beside_a_fork(rt: HostRuntime) {
    insert_given_each::<Map>(
        &rt,
        rt.alloc(),
        last(
            &[
                b"aaaaaaaabbbbbbbb",
                b"aaaaaaaacccccccc",
                b"zzzzzzzzdddddddd",
            ],
            &[4, 8],
        ),
    );
}
