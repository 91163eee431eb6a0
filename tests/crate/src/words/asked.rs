//! Calls of the sets and maps, each with the reply that it should give.
use crate::checks::same_at;
use crate::words::arrays::{Arrays, Which};
use judy_arena::NoMemory;
use judy_model::{LongCall, OneCall, OwnedReply, Reply};
use std::alloc::Global;
use std::process::Abort;

/// The reply of a set. If memory is refused, nothing has changed, and a second try succeeds.
pub(crate) fn ask_set(
    rt: &impl Abort,
    alloc: Global,
    arrays: &mut Arrays,
    which: Which,
    call: OneCall,
) -> Result<OwnedReply, NoMemory> {
    let words = arrays.live_words();
    let entries = arrays.population();
    if let Ok(reply) = arrays.one(alloc, which, call) {
        return Ok(reply);
    }
    same_at(rt, arrays.live_words(), words, "words after a refusal");
    same_at(rt, arrays.population(), entries, "entries after a refusal");
    arrays.one(alloc, which, call)
}

/// The reply of a map, in the same way.
pub(crate) fn ask_map(
    rt: &impl Abort,
    alloc: Global,
    arrays: &mut Arrays,
    which: Which,
    call: LongCall,
) -> Result<OwnedReply, NoMemory> {
    let words = arrays.live_words();
    let entries = arrays.population();
    if let Ok(reply) = arrays.long(alloc, which, call) {
        return Ok(reply);
    }
    same_at(rt, arrays.live_words(), words, "words after a refusal");
    same_at(rt, arrays.population(), entries, "entries after a refusal");
    arrays.long(alloc, which, call)
}

/// The first set should give this reply.
pub(crate) fn one(
    rt: &impl Abort,
    alloc: Global,
    arrays: &mut Arrays,
    call: OneCall,
    want: Reply<'_>,
) -> Result<(), NoMemory> {
    let reply = ask_set(rt, alloc, arrays, Which::First, call)?;
    same_at(rt, reply.reply(), want, call);
    Ok(())
}

/// The first map should give this reply.
pub(crate) fn long(
    rt: &impl Abort,
    alloc: Global,
    arrays: &mut Arrays,
    call: LongCall,
    want: Reply<'_>,
) -> Result<(), NoMemory> {
    let reply = ask_map(rt, alloc, arrays, Which::First, call)?;
    same_at(rt, reply.reply(), want, call);
    Ok(())
}
