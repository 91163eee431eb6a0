//! A walk of mixed calls compared with the plain store.
use crate::calls::{self, Fields, OF_STRINGS, OF_WORDS, drawn};
use crate::checks::{holds_at, same, same_at};
use crate::strings::arrays::{Arrays, Which};
use judy_arena::NoMemory;
use judy_model::{Call, LongCall, Name, Operation, OwnedReply, Quota, ReplyRoom, Right, StrCall};
use judy_reference::Store;
use std::alloc::{AllocError, Global};
use std::process::Abort;
use std::test::Fail;

const MAX: u64 = 18_446_744_073_709_551_615;

/// A quota with room for everything.
const AMPLE: Quota = Quota {
    entries: MAX,
    pieces: MAX,
};

/// The strings of the walk: prefixes of one another, the edges of words of 8 bytes, and both ends
/// of the order.
const STRINGS: [&[u8]; 16] = [
    b"",
    b"\x01",
    b"a",
    b"abcdefg",
    b"abcdefgh",
    b"abcdefghi",
    b"abcdefghijklmno",
    b"abcdefghijklmnop",
    b"abcdefghijklmnopq",
    b"abcdefghijklmnopqrstuvwxyz0123456789",
    b"abcdefghijklmnopqrstuvwxyz0123456788",
    b"abcdefghijklmnoz",
    b"abcdefgz",
    b"\x7f",
    b"\x80",
    b"\xff\xff\xff\xff\xff\xff\xff\xff\xff\xff\xff\xff\xff\xff\xff\xff\xff",
];

/// The words of the walk.
const WORDS: [u64; 8] = [0, 1, 255, 256, 65_536, 4_294_967_296, MAX - 1, MAX];

/// How many entries the searches of the walk ask for. 0: one, without a number.
const MOST: [u16; 4] = [0, 0, 3, 65_535];

/// The reply of a JudySL. If memory is refused, nothing has changed, and a second try
/// succeeds.
fn ask_strings(
    rt: &impl Abort,
    alloc: Global,
    arrays: &mut Arrays,
    which: Which,
    call: &Call<'_>,
) -> Result<OwnedReply, NoMemory> {
    let words = arrays.live_words();
    if let Ok(reply) = arrays.string(rt, alloc, which, call) {
        return Ok(reply);
    }
    same_at(rt, arrays.live_words(), words, "words after a refusal");
    arrays.string(rt, alloc, which, call)
}

/// The reply of the JudyL, in the same way.
fn ask_words(
    rt: &impl Abort,
    alloc: Global,
    arrays: &mut Arrays,
    call: LongCall,
) -> Result<OwnedReply, NoMemory> {
    let words = arrays.live_words();
    if let Ok(reply) = arrays.word(alloc, call) {
        return Ok(reply);
    }
    same_at(rt, arrays.live_words(), words, "words after a refusal");
    arrays.word(alloc, call)
}

/// The reply of the plain store.
fn try_store(alloc: Global, store: &mut Store, call: &Call<'_>) -> Result<OwnedReply, AllocError> {
    let mut found = ReplyRoom::new();
    let reply = store.step(alloc, Right::Change, AMPLE, call, &mut found)?;
    Ok(OwnedReply::of(&reply))
}

/// The reply of the plain store. At most one request for memory is refused.
fn ask_store(alloc: Global, store: &mut Store, call: &Call<'_>) -> Result<OwnedReply, AllocError> {
    match try_store(alloc, store, call) {
        Ok(reply) => Ok(reply),
        Err(_) => try_store(alloc, store, call),
    }
}

/// The fields of a call of this operation. A third of the insertions has no value, and a third of the removals
/// has one.
fn fields(operation: Operation, seed: u64) -> Fields {
    let number = WORDS[(seed >> 32) as usize % 8];
    Fields {
        index: if operation == Operation::Nth {
            number % 16
        } else {
            WORDS[(seed >> 24) as usize % 8]
        },
        key: STRINGS[(seed >> 24) as usize % 16],
        number,
        other: WORDS[(seed >> 36) as usize % 8],
        most: MOST[(seed >> 44) as usize % 4],
        stores: (seed >> 28) % 3 > u64::from(operation == Operation::Remove),
    }
}

/// A call of a JudySL. Half of the values are numbers of many digits, and the others recur.
fn string_call(seed: u64) -> Result<StrCall<'static>, Fail> {
    let operation = drawn(&OF_STRINGS, seed >> 40);
    let mut fields = fields(operation, seed);
    if (seed >> 27) % 2 == 0 {
        fields.number = seed >> 8;
    }
    Ok(calls::string(operation, fields).ok_or("a call of a JudySL")?)
}

/// A call of the JudyL.
fn word_call(seed: u64) -> Result<LongCall, Fail> {
    let operation = drawn(&OF_WORDS, seed >> 40);
    Ok(calls::long(operation, fields(operation, seed)).ok_or("a call of a JudyL")?)
}

fn name(text: &[u8]) -> Result<Name, Fail> {
    Ok(Name::read(text).ok_or("a name")?)
}

/// One call of a JudySL, compared with the store's map of that name.
fn both_strings(
    rt: &impl Abort,
    alloc: Global,
    arrays: &mut Arrays,
    store: &mut Store,
    seed: u64,
) -> Result<(), Fail> {
    let (which, text): (Which, &[u8]) = if (seed >> 20) % 2 == 0 {
        (Which::First, b"a")
    } else {
        (Which::Second, b"b")
    };
    let call = Call::Str(name(text)?, string_call(seed)?);
    let want = ask_store(alloc, store, &call)?;
    let reply = ask_strings(rt, alloc, arrays, which, &call)?;
    same_at(rt, reply.reply(), want.reply(), (call, "of", which));
    Ok(())
}

/// One call of the JudyL, compared with the store's map.
fn both_words(
    rt: &impl Abort,
    alloc: Global,
    arrays: &mut Arrays,
    store: &mut Store,
    seed: u64,
) -> Result<(), Fail> {
    let call = word_call(seed)?;
    let want = ask_store(alloc, store, &Call::Long(name(b"a")?, call))?;
    let reply = ask_words(rt, alloc, arrays, call)?;
    same_at(rt, reply.reply(), want.reply(), call);
    Ok(())
}

#[test]
fn five_thousand_calls(rt: HostRuntime) -> Result<(), Fail> {
    let alloc = rt.alloc();
    let mut arrays = Arrays::new(alloc);
    let mut store = Store::new(alloc);
    let mut seed: u64 = 1;
    for i in 0..5_000u32 {
        seed = seed
            .wrapping_mul(6_364_136_223_846_793_005)
            .wrapping_add(1_442_695_040_888_963_407);
        if (seed >> 21) % 4 == 0 {
            both_words(&rt, alloc, &mut arrays, &mut store, seed)?;
        } else {
            both_strings(&rt, alloc, &mut arrays, &mut store, seed)?;
        }
        holds_at(
            &rt,
            u128::from(arrays.live_words()) <= 16 * u128::from(store.pieces()),
            ("words after call", i),
        );
    }
    for which in [Which::First, Which::Second] {
        let free = Call::Str(name(b"a")?, StrCall::Free);
        let _ = arrays.string(&rt, alloc, which, &free)?;
    }
    let _ = arrays.word(alloc, LongCall::Free)?;
    same(&rt, arrays.live_words(), 0);
    Ok(())
}
