//! Branches when memory runs out.

use crate::refusals::full;
use crate::refusals::grown::{Entries, Grown, Trial, insert_given_each};
use judy_arena::{Arena, NoMemory};
use judy_refs::Ref;
use std::alloc::Global;
use std::process::Abort;

/// A branch, if there is one, with its arena. The first entry makes the branch, with two children.
/// Each other entry is one child.
#[derive(Drop)]
struct Branch {
    arena: Arena,
    branch: Option<Ref>,
}

/// A child for a byte: a reference to a linear leaf. These tests do not look at the leaf.
fn child_for(byte: u8) -> Option<Ref> {
    Ref::read(4_294_967_296 + u64::from(byte))
}

/// The byte of an entry after the first. The bytes fall from 255.
fn byte_of(number: u64) -> u8 {
    (256u64.wrapping_sub(number) % 256) as u8
}

/// The branch with its first two children.
fn make(alloc: Global, arena: &mut Arena) -> Result<Option<Ref>, NoMemory> {
    let (Some(low), Some(high)) = (child_for(0), child_for(1)) else {
        return Ok(None);
    };
    Ok(Some(judy_branch::make(alloc, arena, 6, 0, &[(0, low), (1, high)], 2)?))
}

impl Grown for Branch {
    fn within(arena: Arena, _entries: Entries) -> Branch {
        Branch {
            arena,
            branch: None,
        }
    }

    fn put(&mut self, alloc: Global, number: u64) -> Result<bool, NoMemory> {
        let Some(branch) = self.branch else {
            self.branch = make(alloc, &mut self.arena)?;
            return Ok(self.branch.is_some());
        };
        let byte = byte_of(number);
        let Some(child) = child_for(byte) else {
            return Ok(false);
        };
        if judy_branch::child(&self.arena, branch, byte).is_some() {
            return Ok(false);
        }
        let population = number.saturating_add(2);
        let put = judy_branch::put_child(alloc, &mut self.arena, branch, byte, child, population)?;
        self.branch = Some(put);
        Ok(true)
    }

    fn has(&self, number: u64) -> bool {
        let Some(branch) = self.branch else {
            return false;
        };
        if number == 0 {
            return judy_branch::child(&self.arena, branch, 0) == child_for(0)
                && judy_branch::child(&self.arena, branch, 1) == child_for(1);
        }
        let byte = byte_of(number);
        judy_branch::child(&self.arena, branch, byte) == child_for(byte)
    }

    fn population(&self) -> Option<u64> {
        match self.branch {
            Some(branch) => Some(judy_branch::population(&self.arena, branch).saturating_sub(1)),
            None => Some(0),
        }
    }

    fn arena(&self) -> &Arena {
        &self.arena
    }

    fn take(&mut self, alloc: Global, len: usize) -> Result<(), NoMemory> {
        full::take(alloc, &mut self.arena, len)
    }
}

/// The insertion of the last of this many children, which takes a block of this size.
fn child_number(rt: &impl Abort, alloc: Global, children: u64, sizes: &'static [usize]) {
    let trial = Trial {
        entries: Entries::Children,
        before: children.saturating_sub(2),
        sizes,
    };
    insert_given_each::<Branch>(rt, alloc, trial);
}

#[test]
fn two_children(rt: HostRuntime) {
    child_number(&rt, rt.alloc(), 2, &[8]);
}

#[test]
fn third_child_in_its_block(rt: HostRuntime) {
    child_number(&rt, rt.alloc(), 3, &[]);
}

#[test]
fn fifth_child(rt: HostRuntime) {
    child_number(&rt, rt.alloc(), 5, &[16]);
}

#[test]
fn ninth_child_makes_a_bitmap(rt: HostRuntime) {
    child_number(&rt, rt.alloc(), 9, &[16]);
}

#[test]
fn tenth_child(rt: HostRuntime) {
    child_number(&rt, rt.alloc(), 10, &[32]);
}

#[test]
fn child_number_26(rt: HostRuntime) {
    child_number(&rt, rt.alloc(), 26, &[64]);
}

#[test]
fn child_number_58(rt: HostRuntime) {
    child_number(&rt, rt.alloc(), 58, &[128]);
}

#[test]
fn child_number_122(rt: HostRuntime) {
    child_number(&rt, rt.alloc(), 122, &[256]);
}

#[test]
fn child_number_128_makes_it_full(rt: HostRuntime) {
    child_number(&rt, rt.alloc(), 128, &[512]);
}

#[test]
fn child_number_129_in_its_block(rt: HostRuntime) {
    child_number(&rt, rt.alloc(), 129, &[]);
}
