//! The entries that a leaf should have, and the results that it should give.
use crate::leaves::held::Part;
use judy_reference::slow;
use std::alloc::Global;
use std::test::Fail;

/// Entries by rising keys. A slow query finds every expected result.
#[derive(Drop)]
pub(crate) struct Wanted {
    entries: Vec<(u64, u64)>,
}

impl Wanted {
    /// No entries, and room for 256. One refusal is allowed.
    pub(crate) fn new(alloc: Global) -> Result<Wanted, Fail> {
        let entries = match Vec::with_capacity(alloc, 256) {
            Ok(entries) => entries,
            Err(_) => Vec::with_capacity(alloc, 256)?,
        };
        Ok(Wanted { entries })
    }

    /// Inserts an absent key.
    pub(crate) fn insert(&mut self, key: u64, value: u64) -> Result<(), Fail> {
        self.entries.push((key, value))?;
        self.entries.sort_unstable();
        Ok(())
    }

    pub(crate) fn remove(&mut self, key: u64) {
        self.entries.retain(|entry| entry.0 != key);
    }

    /// Writes this value at the key, if it is present.
    pub(crate) fn write(&mut self, key: u64, value: u64) -> Result<bool, Fail> {
        if self.get(key).is_none() {
            return Ok(false);
        }
        self.remove(key);
        self.insert(key, value)?;
        Ok(true)
    }

    pub(crate) fn population(&self) -> u64 {
        self.entries.len() as u64
    }

    pub(crate) fn get(&self, key: u64) -> Option<u64> {
        match slow::first_entry(&self.entries, key) {
            Some((found, value)) if found == key => Some(value),
            _ => None,
        }
    }

    /// How many keys are below a present key.
    pub(crate) fn find(&self, key: u64) -> Option<u64> {
        if self.get(key).is_none() {
            return None;
        }
        Some(self.count(0, key).wrapping_sub(1))
    }

    pub(crate) fn count(&self, a: u64, b: u64) -> u64 {
        slow::count_between(&self.entries, a, b) as u64
    }

    /// The key of this rank. The least key has rank 0.
    pub(crate) fn nth(&self, rank: u64) -> Option<u64> {
        let place = (rank as usize).wrapping_add(1);
        Some(slow::nth_entry(&self.entries, place)?.0)
    }

    pub(crate) fn first_entry(&self, x: u64) -> Option<(u64, u64)> {
        slow::first_entry(&self.entries, x)
    }

    pub(crate) fn last_entry(&self, x: u64) -> Option<(u64, u64)> {
        slow::last_entry(&self.entries, x)
    }

    pub(crate) fn first_empty(&self, x: u64) -> Option<u64> {
        slow::first_gap(&self.entries, x)
    }

    pub(crate) fn last_empty(&self, x: u64) -> Option<u64> {
        slow::last_gap(&self.entries, x)
    }

    /// What a leaf of `len` entries has, from the entry at place `from` on. None if there are not
    /// that many, or if `len` is 0.
    pub(crate) fn part(&self, from: u64, len: u64) -> Option<Part> {
        if len == 0 {
            return None;
        }
        let last = self.nth(from.wrapping_add(len).wrapping_sub(1))?;
        Some(Part {
            population: len,
            first: self.nth(from)?,
            last,
            value: self.get(last),
        })
    }
}
