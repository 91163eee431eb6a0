//! Two sets and two maps in one arena.
use judy_arena::{Arena, NoMemory};
use judy_model::{Listing, LongCall, OneCall, OwnedReply};
use judy_words::{Judy1, JudyL};
use std::alloc::Global;

/// One of the two arrays of a kind.
#[derive(Clone, Copy, Debug, PartialEq, Eq)]
pub(crate) enum Which {
    First,
    Second,
}

/// Four arrays and their arena.
#[derive(Drop)]
pub(crate) struct Arrays {
    arena: Arena,
    set: Judy1,
    other_set: Judy1,
    map: JudyL,
    other_map: JudyL,
    listing: Listing,
}

impl Arrays {
    /// Four empty arrays.
    pub(crate) fn new(alloc: Global) -> Arrays {
        Arrays {
            arena: Arena::new(alloc),
            set: Judy1::new(),
            other_set: Judy1::new(),
            map: JudyL::new(),
            other_map: JudyL::new(),
            listing: Listing::new(),
        }
    }

    /// Answers a call of one of the sets.
    pub(crate) fn one(
        &mut self,
        alloc: Global,
        which: Which,
        call: OneCall,
    ) -> Result<OwnedReply, NoMemory> {
        let set = match which {
            Which::First => &mut self.set,
            Which::Second => &mut self.other_set,
        };
        let reply = set.answer(alloc, &mut self.arena, call, &mut self.listing)?;
        Ok(OwnedReply::of(&reply))
    }

    /// Answers a call of one of the maps.
    pub(crate) fn long(
        &mut self,
        alloc: Global,
        which: Which,
        call: LongCall,
    ) -> Result<OwnedReply, NoMemory> {
        let map = match which {
            Which::First => &mut self.map,
            Which::Second => &mut self.other_map,
        };
        let reply = map.answer(alloc, &mut self.arena, call, &mut self.listing)?;
        Ok(OwnedReply::of(&reply))
    }

    /// How many entries all four hold.
    pub(crate) fn population(&self) -> u128 {
        u128::from(self.set.population(&self.arena))
            + u128::from(self.other_set.population(&self.arena))
            + u128::from(self.map.population(&self.arena))
            + u128::from(self.other_map.population(&self.arena))
    }

    /// The words that the arena took from the machine.
    pub(crate) fn region(&self) -> u64 {
        self.arena.region()
    }

    /// The words of all live blocks.
    pub(crate) fn live_words(&self) -> u64 {
        self.arena.live_words()
    }
}
