//! Worked rows, and a walk of mixed calls compared with the plain store.

use crate::calls::{self, Fields, OF_SETS, OF_WORDS, drawn};
use crate::checks::{holds, same, same_at};
use crate::words::arrays::{Arrays, Which};
use crate::words::asked::{ask_map, ask_set, long, one};
use judy_arena::{Arena, NoMemory};
use judy_model::{
    Call, Given, LongCall, Name, OneCall, Operation, OwnedReply, Quota, Reply, ReplyRoom, Right,
};
use judy_reference::Store;
use judy_words::JudyL;
use std::alloc::{AllocError, Global};
use std::process::Abort;
use std::test::Fail;

const MAX: u64 = 18_446_744_073_709_551_615;

/// A quota with room for everything.
const AMPLE: Quota = Quota {
    entries: MAX,
    pieces: MAX,
};

/// The reply of the plain store.
fn try_store(alloc: Global, store: &mut Store, call: &Call<'_>) -> Result<OwnedReply, AllocError> {
    let mut found = ReplyRoom::new();
    let reply = store.step(alloc, Right::Change, AMPLE, call, &mut found)?;
    Ok(OwnedReply::of(&reply))
}

/// The reply of the plain store. At most one request for memory is refused.
fn ask_store(alloc: Global, store: &mut Store, call: &Call<'_>) -> Result<OwnedReply, AllocError> {
    match try_store(alloc, store, call) {
        Ok(reply) => Ok(reply),
        Err(_) => try_store(alloc, store, call),
    }
}

#[test]
fn empty_arrays(rt: HostRuntime) -> Result<(), Fail> {
    let alloc = rt.alloc();
    let mut a = Arrays::new(alloc);
    one(&rt, alloc, &mut a, OneCall::Count(0, MAX), Reply::Count(0))?;
    one(&rt, alloc, &mut a, OneCall::FirstEmpty(0), Reply::Index(0))?;
    long(&rt, alloc, &mut a, LongCall::Get(0), Reply::Null)?;
    one(&rt, alloc, &mut a, OneCall::Free, Reply::Count(0))?;
    Ok(())
}

#[test]
fn ends_of_the_range(rt: HostRuntime) -> Result<(), Fail> {
    let alloc = rt.alloc();
    let mut a = Arrays::new(alloc);
    one(&rt, alloc, &mut a, OneCall::Set(0), Reply::Int(true))?;
    one(&rt, alloc, &mut a, OneCall::Set(MAX), Reply::Int(true))?;
    one(&rt, alloc, &mut a, OneCall::Next(0), Reply::Index(MAX))?;
    one(&rt, alloc, &mut a, OneCall::Next(MAX), Reply::Int(false))?;
    one(&rt, alloc, &mut a, OneCall::Prev(0), Reply::Int(false))?;
    one(
        &rt,
        alloc,
        &mut a,
        OneCall::LastEmpty(MAX),
        Reply::Index(MAX - 1),
    )?;
    one(&rt, alloc, &mut a, OneCall::PrevEmpty(0), Reply::Int(false))?;
    one(
        &rt,
        alloc,
        &mut a,
        OneCall::NextEmpty(MAX),
        Reply::Int(false),
    )?;
    one(&rt, alloc, &mut a, OneCall::Count(0, MAX), Reply::Count(2))?;
    Ok(())
}

#[test]
fn ranks(rt: HostRuntime) -> Result<(), Fail> {
    let alloc = rt.alloc();
    let mut a = Arrays::new(alloc);
    for x in [3, 5, 9] {
        one(&rt, alloc, &mut a, OneCall::Set(x), Reply::Int(true))?;
    }
    one(&rt, alloc, &mut a, OneCall::Count(9, 3), Reply::Count(0))?;
    one(&rt, alloc, &mut a, OneCall::Count(3, 9), Reply::Count(3))?;
    one(&rt, alloc, &mut a, OneCall::ByCount(0), Reply::Int(false))?;
    one(&rt, alloc, &mut a, OneCall::ByCount(1), Reply::Index(3))?;
    one(&rt, alloc, &mut a, OneCall::ByCount(3), Reply::Index(9))?;
    one(&rt, alloc, &mut a, OneCall::ByCount(4), Reply::Int(false))?;
    Ok(())
}

#[test]
fn values(rt: HostRuntime) -> Result<(), Fail> {
    let alloc = rt.alloc();
    let mut a = Arrays::new(alloc);
    long(
        &rt,
        alloc,
        &mut a,
        LongCall::Insert(5, Given::Value(8)),
        Reply::Value(0),
    )?;
    long(
        &rt,
        alloc,
        &mut a,
        LongCall::Insert(5, Given::Nothing),
        Reply::Value(8),
    )?;
    long(
        &rt,
        alloc,
        &mut a,
        LongCall::Insert(5, Given::Value(9)),
        Reply::Value(8),
    )?;
    long(
        &rt,
        alloc,
        &mut a,
        LongCall::Insert(5, Given::Plus(MAX)),
        Reply::Value(8),
    )?;
    long(
        &rt,
        alloc,
        &mut a,
        LongCall::Insert(5, Given::Plus(1)),
        Reply::Value(9),
    )?;
    long(&rt, alloc, &mut a, LongCall::Get(5), Reply::Value(9))?;
    long(
        &rt,
        alloc,
        &mut a,
        LongCall::ByCount(1),
        Reply::ValueAt(9, 5),
    )?;
    long(&rt, alloc, &mut a, LongCall::Next(5), Reply::Null)?;
    long(&rt, alloc, &mut a, LongCall::FirstEmpty(5), Reply::Index(6))?;
    long(&rt, alloc, &mut a, LongCall::Delete(5), Reply::Int(true))?;
    long(&rt, alloc, &mut a, LongCall::Delete(5), Reply::Int(false))?;
    Ok(())
}

#[test]
fn one_name_two_kinds(rt: HostRuntime) -> Result<(), Fail> {
    let alloc = rt.alloc();
    let mut a = Arrays::new(alloc);
    long(
        &rt,
        alloc,
        &mut a,
        LongCall::Insert(1, Given::Nothing),
        Reply::Value(0),
    )?;
    long(
        &rt,
        alloc,
        &mut a,
        LongCall::Insert(2, Given::Value(9)),
        Reply::Value(0),
    )?;
    one(&rt, alloc, &mut a, OneCall::Count(0, MAX), Reply::Count(0))?;
    long(
        &rt,
        alloc,
        &mut a,
        LongCall::Last(MAX),
        Reply::ValueAt(9, 2),
    )?;
    long(&rt, alloc, &mut a, LongCall::Prev(1), Reply::Null)?;
    long(&rt, alloc, &mut a, LongCall::Free, Reply::Count(2))?;
    long(&rt, alloc, &mut a, LongCall::Count(0, MAX), Reply::Count(0))?;
    Ok(())
}

#[test]
fn top_of_the_range(rt: HostRuntime) -> Result<(), Fail> {
    let alloc = rt.alloc();
    let mut a = Arrays::new(alloc);
    for i in 0..256 {
        one(&rt, alloc, &mut a, OneCall::Set(MAX - i), Reply::Int(true))?;
    }
    one(
        &rt,
        alloc,
        &mut a,
        OneCall::Count(0, MAX),
        Reply::Count(256),
    )?;
    one(
        &rt,
        alloc,
        &mut a,
        OneCall::FirstEmpty(MAX - 255),
        Reply::Int(false),
    )?;
    one(
        &rt,
        alloc,
        &mut a,
        OneCall::NextEmpty(MAX - 256),
        Reply::Int(false),
    )?;
    one(
        &rt,
        alloc,
        &mut a,
        OneCall::LastEmpty(MAX),
        Reply::Index(MAX - 256),
    )?;
    Ok(())
}

/// The words of the walk: both ends, the edges of bytes, and consecutive words.
const WORDS: [u64; 16] = [
    0,
    1,
    2,
    3,
    4,
    5,
    254,
    255,
    256,
    257,
    65_536,
    4_294_967_296,
    MAX - 3,
    MAX - 2,
    MAX - 1,
    MAX,
];

/// How many entries the searches of the walk ask for. 0: one, without a number.
const MOST: [u16; 4] = [0, 0, 3, 65_535];

fn word(seed: u64) -> u64 {
    WORDS[(seed % 16) as usize]
}

/// The fields of a call of this operation. A third of the insertions has no value, and a third of the removals
/// has one.
fn fields(operation: Operation, seed: u64) -> Fields {
    let number = word(seed >> 32);
    Fields {
        index: if operation == Operation::Nth {
            number % 16
        } else {
            word(seed >> 24)
        },
        key: b"",
        number,
        other: word(seed >> 36),
        most: MOST[(seed >> 44) as usize % 4],
        stores: (seed >> 28) % 3 > u64::from(operation == Operation::Remove),
    }
}

/// A call of a set.
fn one_call(seed: u64) -> Result<OneCall, Fail> {
    let operation = drawn(&OF_SETS, seed >> 40);
    Ok(calls::one(operation, fields(operation, seed)).ok_or("a call of a set")?)
}

/// A call of a map.
fn long_call(seed: u64) -> Result<LongCall, Fail> {
    let operation = drawn(&OF_WORDS, seed >> 40);
    Ok(calls::long(operation, fields(operation, seed)).ok_or("a call of a map")?)
}

fn name(which: Which) -> Result<Name, Fail> {
    let text: &[u8] = match which {
        Which::First => b"a",
        Which::Second => b"b",
    };
    Ok(Name::read(text).ok_or("a name")?)
}

/// One call of one of the four arrays, compared with the store's array of that kind and name.
fn both(
    rt: &impl Abort,
    alloc: Global,
    arrays: &mut Arrays,
    store: &mut Store,
    seed: u64,
) -> Result<(), Fail> {
    let which = if (seed >> 20) % 2 == 0 {
        Which::First
    } else {
        Which::Second
    };
    if (seed >> 21) % 2 == 0 {
        let call = one_call(seed)?;
        let want = ask_store(alloc, store, &Call::One(name(which)?, call))?;
        let reply = ask_set(rt, alloc, arrays, which, call)?;
        same_at(rt, reply.reply(), want.reply(), (call, "of", which));
    } else {
        let call = long_call(seed)?;
        let want = ask_store(alloc, store, &Call::Long(name(which)?, call))?;
        let reply = ask_map(rt, alloc, arrays, which, call)?;
        same_at(rt, reply.reply(), want.reply(), (call, "of", which));
    }
    Ok(())
}

#[test]
fn two_thousand_calls(rt: HostRuntime) -> Result<(), Fail> {
    let alloc = rt.alloc();
    let mut arrays = Arrays::new(alloc);
    let mut store = Store::new(alloc);
    let mut seed: u64 = 1;
    for i in 0..2_000u32 {
        seed = seed
            .wrapping_mul(6_364_136_223_846_793_005)
            .wrapping_add(1_442_695_040_888_963_407);
        both(&rt, alloc, &mut arrays, &mut store, seed)?;
        same_at(
            &rt,
            arrays.population(),
            u128::from(store.used()),
            ("entries after call", i),
        );
    }
    for which in [Which::First, Which::Second] {
        let _ = arrays.one(alloc, which, OneCall::Free)?;
        let _ = arrays.long(alloc, which, LongCall::Free)?;
    }
    same(&rt, arrays.live_words(), 0);
    Ok(())
}

/// Inserts 7, and returns its value before. If memory is refused, the map is still empty, and a
/// second try succeeds.
fn insert_seven(
    rt: &impl Abort,
    alloc: Global,
    arena: &mut Arena,
    map: &mut JudyL,
) -> Result<Option<u64>, NoMemory> {
    if let Ok(answer) = map.insert(alloc, arena, 7) {
        return Ok(answer.before);
    }
    same(rt, arena.live_words(), 0);
    same(rt, arena.refusals(), 1);
    let answer = map.insert(alloc, arena, 7)?;
    Ok(answer.before)
}

#[test]
fn a_map_by_hand(rt: HostRuntime) -> Result<(), Fail> {
    let mut arena = Arena::new(rt.alloc());
    let mut map = JudyL::new();
    holds(
        &rt,
        insert_seven(&rt, rt.alloc(), &mut arena, &mut map)? == None,
    );
    map.write(&mut arena, 7, 9);
    holds(
        &rt,
        map.insert(rt.alloc(), &mut arena, 7)?.before == Some(9),
    );
    let again = JudyL::from_reference(map.reference());
    same(&rt, again.get(&arena, 7), Some(9));
    same(&rt, again.population(&arena), 1);
    holds(&rt, map.delete(&mut arena, 7));
    holds(&rt, map.reference() == JudyL::new().reference());
    same(&rt, arena.live_words(), 0);
    Ok(())
}
