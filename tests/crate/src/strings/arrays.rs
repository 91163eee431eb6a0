//! Two JudySL arrays and a JudyL in one arena. The JudySL arrays are called by judy_kinds, which picks the
//! method of each call; `held` calls the methods themselves.

use crate::checks::{holds, holds_at};
use judy_arena::{Arena, NoMemory};
use judy_bytes::Sha256Hash;
use judy_directory::Place;
use judy_kinds::{answer, is_callable};
use judy_model::{Call, Listing, LongCall, OwnedReply, Reply, ReplyRoom};
use judy_words::JudyL;
use std::alloc::Global;
use std::process::Abort;

/// One of the two JudySL arrays.
#[derive(Clone, Copy, Debug, PartialEq, Eq)]
pub(crate) enum Which {
    First,
    Second,
}

/// Three arrays and their arena.
#[derive(Drop)]
pub(crate) struct Arrays {
    arena: Arena,
    first: Place,
    second: Place,
    words: JudyL,
}

impl Arrays {
    /// Three empty arrays.
    pub(crate) fn new(alloc: Global) -> Arrays {
        Arrays {
            arena: Arena::new(alloc),
            first: Place::nothing(),
            second: Place::nothing(),
            words: JudyL::new(),
        }
    }

    /// Answers a call of one of the JudySL arrays. Its string has no byte 0. A reply without a key and without
    /// entries leaves the buffer of keys empty.
    pub(crate) fn string(
        &mut self,
        rt: &impl Abort,
        alloc: Global,
        which: Which,
        call: &Call<'_>,
    ) -> Result<OwnedReply, NoMemory> {
        let place = match which {
            Which::First => self.first,
            Which::Second => self.second,
        };
        holds(rt, matches!(call, Call::Str(_, _)) && is_callable(call));
        holds(rt, place.pieces < 1_000_000);
        let mut found = ReplyRoom::new();
        let (reply, place) = answer(alloc, &mut self.arena, Sha256Hash, place, call, &mut found)?;
        let reply = OwnedReply::of(&reply);
        if !matches!(reply.reply(), Reply::ValueKey(_, _) | Reply::Entries(_, _)) {
            holds_at(
                rt,
                found.key.is_empty(),
                "what an empty answer leaves in the buffer",
            );
        }
        match which {
            Which::First => self.first = place,
            Which::Second => self.second = place,
        }
        Ok(reply)
    }

    /// Answers a call of the JudyL.
    pub(crate) fn word(&mut self, alloc: Global, call: LongCall) -> Result<OwnedReply, NoMemory> {
        let mut listing = Listing::new();
        let reply = self
            .words
            .answer(alloc, &mut self.arena, call, &mut listing)?;
        Ok(OwnedReply::of(&reply))
    }

    /// The words of all live blocks.
    pub(crate) fn live_words(&self) -> u64 {
        self.arena.live_words()
    }
}
