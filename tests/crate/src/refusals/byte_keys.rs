//! JudyHS when memory runs out, under a hash that puts keys with the same last byte in one chain.

use crate::refusals::full;
use crate::refusals::grown::{Entries, Grown, Trial, insert_given_each};
use judy_arena::{Arena, NoMemory};
use judy_bytes::{JudyHS, KeyHash};
use judy_model::Given;
use std::alloc::Global;

/// The word of a key is its last byte, or 0 for the empty key.
#[derive(Clone, Copy)]
struct LastByte;

impl KeyHash for LastByte {
    ghost hashed = { ? };

    fn word(&self, key: &[u8]) -> u64 {
        if key.len() == 0 {
            return 0;
        }
        u64::from(key[key.len() - 1])
    }
}

/// A JudyHS with its arena.
#[derive(Drop)]
struct Map {
    arena: Arena,
    map: JudyHS<LastByte>,
    entries: Entries,
}

/// The key of a number, if there is one and a map can hold it.
fn key(entries: Entries, number: u64) -> Option<&'static [u8]> {
    let key = entries.text(number)?;
    if key.len() <= 1000 { Some(key) } else { None }
}

/// The value of the key of a number.
fn value_of(number: u64) -> u64 {
    number.wrapping_mul(7).wrapping_add(1)
}

impl Grown for Map {
    fn within(arena: Arena, entries: Entries) -> Map {
        Map {
            arena,
            map: JudyHS::new(LastByte),
            entries,
        }
    }

    fn put(&mut self, alloc: Global, number: u64) -> Result<bool, NoMemory> {
        let Some(key) = key(self.entries, number) else {
            return Ok(false);
        };
        let value = Given::Plus(value_of(number));
        let answer = self.map.insert(alloc, &mut self.arena, key, value)?;
        Ok(answer.before.is_none())
    }

    fn has(&self, number: u64) -> bool {
        match key(self.entries, number) {
            Some(key) => self.map.get(&self.arena, key) == Some(value_of(number)),
            None => false,
        }
    }

    fn population(&self) -> Option<u64> {
        None
    }

    fn arena(&self) -> &Arena {
        &self.arena
    }

    fn take(&mut self, alloc: Global, len: usize) -> Result<(), NoMemory> {
        full::take(alloc, &mut self.arena, len)
    }
}

/// The insertion of the last of some keys.
fn last(keys: &'static [&'static [u8]], sizes: &'static [usize]) -> Trial {
    Trial {
        entries: Entries::Texts(keys),
        before: (keys.len() as u64).saturating_sub(1),
        sizes,
    }
}

#[test]
fn first_key(rt: HostRuntime) {
    insert_given_each::<Map>(&rt, rt.alloc(), last(&[b"one."], &[4, 4]));
}

#[test]
fn empty_key(rt: HostRuntime) {
    insert_given_each::<Map>(&rt, rt.alloc(), last(&[b""], &[4, 4]));
}

#[test]
fn longer_key(rt: HostRuntime) {
    insert_given_each::<Map>(
        &rt,
        rt.alloc(),
        last(
            &[b"a key of more bytes than forty-two, to be sure"],
            &[16, 4],
        ),
    );
}

#[test]
fn second_key_of_a_chain(rt: HostRuntime) {
    insert_given_each::<Map>(&rt, rt.alloc(), last(&[b"one.", b"two."], &[4]));
}

#[test]
fn third_key_of_a_chain(rt: HostRuntime) {
    insert_given_each::<Map>(&rt, rt.alloc(), last(&[b"one.", b"two.", b"three."], &[4]));
}

#[test]
fn second_chain(rt: HostRuntime) {
    insert_given_each::<Map>(&rt, rt.alloc(), last(&[b"one.", b"two!"], &[4, 8]));
}
