//! An array of each kind by hand, from no array to no array. Each request for memory may be refused
//! once.

use crate::checks::{holds, holds_at, same, same_at};
use crate::tenants::spelled::{call_of, compare};
use judy_arena::{Arena, NoMemory};
use judy_bytes::{OrderHash, Sha256Hash};
use judy_directory::Place;
use judy_kinds::{answer, array_of, asks, is_callable};
use judy_model::{ArraysFrom, Call, KEY_LIMIT, Key, Kind, Name, OwnedReply, ReplyRoom, StrCall};
use std::alloc::Global;
use std::process::Abort;
use std::test::Fail;

/// Whether the call is of an array of this kind.
fn is_of(call: &Call<'_>, kind: Kind) -> bool {
    match (call, kind) {
        (Call::One(..), Kind::One) => true,
        (Call::Long(..), Kind::Long) => true,
        (Call::Str(..), Kind::Str) => true,
        (Call::Bytes(..), Kind::Bytes) => true,
        _ => false,
    }
}

/// An array of one kind at its place, and its arena.
#[derive(Drop)]
struct Held<H: OrderHash> {
    arena: Arena,
    hash: H,
    kind: Kind,
    place: Place,
}

impl<H: OrderHash> Held<H> {
    /// No array, of this kind.
    fn new(alloc: Global, hash: H, kind: Kind) -> Held<H> {
        Held {
            arena: Arena::new(alloc),
            hash,
            kind,
            place: Place::nothing(),
        }
    }

    /// Whether the call asks for a new entry.
    fn asks(&self, rt: &impl Abort, call: &Call<'_>) -> bool {
        holds(rt, is_of(call, self.kind));
        holds(rt, is_callable(call));
        asks(&self.arena, self.hash, &self.place, call)
    }

    /// Makes a call. Err: out of memory.
    fn call(
        &mut self,
        rt: &impl Abort,
        alloc: Global,
        call: &Call<'_>,
    ) -> Result<OwnedReply, NoMemory> {
        holds(rt, is_of(call, self.kind));
        holds(rt, is_callable(call));
        holds(rt, self.place.pieces < 1_000_000);
        let mut found = ReplyRoom::new();
        let (reply, place) = answer(
            alloc,
            &mut self.arena,
            self.hash,
            self.place,
            call,
            &mut found,
        )?;
        self.place = place;
        Ok(OwnedReply::of(&reply))
    }

    /// How many entries and pieces it has.
    fn counts(&self) -> (u64, u64) {
        (self.place.entries, self.place.pieces)
    }

    /// The words of all live blocks.
    fn words(&self) -> u64 {
        self.arena.live_words()
    }

    /// Whether there is no array.
    fn is_nothing(&self) -> bool {
        self.place.is_nothing()
    }
}

/// The reply. If memory is refused, nothing has changed, and a second try succeeds.
fn ask<H: OrderHash>(
    rt: &impl Abort,
    alloc: Global,
    held: &mut Held<H>,
    call: &Call<'_>,
) -> Result<OwnedReply, NoMemory> {
    let asked = held.asks(rt, call);
    holds(rt, call.inserts() || !asked);
    let before = (held.counts(), held.words());
    if let Ok(reply) = held.call(rt, alloc, call) {
        let is_new = before.0.0 < held.counts().0;
        holds(rt, !call.inserts() || is_new == asked);
        return Ok(reply);
    }
    holds_at(rt, asked, "only a new entry is refused");
    same_at(rt, (held.counts(), held.words()), before, "after a refusal");
    held.call(rt, alloc, call)
}

/// Makes the calls of these rows of one kind, from no array to no array. Each row has a line, the text
/// of its reply, and how many entries and pieces the array has then.
fn check(
    rt: &impl Abort,
    alloc: Global,
    kind: Kind,
    rows: &[(&str, &str, u64, u64)],
) -> Result<(), Fail> {
    let mut held = Held::new(alloc, Sha256Hash, kind);
    for (line, want, entries, pieces) in rows {
        let mut room = [0; KEY_LIMIT];
        let call = call_of(line, &mut room)?;
        let reply = ask(rt, alloc, &mut held, &call)?;
        compare(rt, line, &reply, want);
        same_at(rt, held.counts(), (*entries, *pieces), line);
    }
    holds(rt, held.is_nothing());
    same(rt, held.words(), 0);
    Ok(())
}

static OF_A_SET: [(&str, &str, u64, u64); 16] = [
    ("J1UF visits 0 -1", "0", 0, 0),
    ("J1UR visits 0 -1 1", "N 0", 0, 0),
    ("J1SE visits 7", "1 7", 1, 1),
    ("J1SE visits -1", "1 18446744073709551615", 2, 2),
    ("J1SE visits -1", "0", 2, 2),
    ("J1UF visits 8 -1", "1 18446744073709551615", 1, 1),
    ("J1SE visits 7", "1 8", 2, 2),
    ("J1UR visits 0 7 9", "N 1", 1, 1),
    ("J1UF visits 0 -1", "1 8", 0, 0),
    ("J1S visits 7", "1", 1, 1),
    ("J1S visits 7", "0", 1, 1),
    ("J1S visits -1", "1", 2, 2),
    ("J1N visits 7", "1 18446744073709551615", 2, 2),
    ("J1F visits 0 9", "E 2 7 18446744073709551615", 2, 2),
    ("J1U visits 7", "1", 1, 1),
    ("J1FA visits", "N 1", 0, 0),
];

#[test]
fn a_set(rt: HostRuntime) -> Result<(), Fail> {
    check(&rt, rt.alloc(), Kind::One, &OF_A_SET)
}

static OF_A_WORD_MAP: [(&str, &str, u64, u64); 20] = [
    ("JLIE visits -1 5", "1 18446744073709551615", 1, 1),
    ("JLIE visits -1 6", "0", 1, 1),
    ("JLIE visits 3 6", "1 3", 2, 2),
    ("JLDF visits 4 9", "NULL", 2, 2),
    ("JLDF visits 4 -1", "V 5 18446744073709551615", 1, 1),
    ("JLF visits 0 9", "E 1 6 3", 1, 1),
    ("JLDR visits 0 -1 9", "N 1", 0, 0),
    ("JLI visits 7 70", "V 0", 1, 1),
    ("JLI visits 7 70", "V 70", 1, 1),
    ("JLA visits 7 1", "V 71", 1, 1),
    ("JLF visits 0", "V 71 7", 1, 1),
    ("JLK visits 7 5", "V 71", 1, 1),
    ("JLK visits 8 5", "NULL", 2, 2),
    ("JLX visits 9 0 5", "NULL", 2, 2),
    ("JLX visits 8 5 6", "V 5", 2, 2),
    ("JLD visits 8 5", "0", 2, 2),
    ("JLD visits 8 6", "1", 1, 1),
    ("JLT visits 8", "NULL", 1, 1),
    ("JLT visits 7", "V 71", 0, 0),
    ("JLFA visits", "N 0", 0, 0),
];

#[test]
fn a_word_map(rt: HostRuntime) -> Result<(), Fail> {
    check(&rt, rt.alloc(), Kind::Long, &OF_A_WORD_MAP)
}

static OF_A_STRING_MAP: [(&str, &str, u64, u64); 17] = [
    ("JSLI visits x3132333435363738 1", "V 0", 1, 2),
    ("JSLDF visits x32", "NULL", 1, 2),
    ("JSLF visits x 9", "E 1 1 x3132333435363738", 1, 2),
    ("JSLDF visits x", "V 1 x3132333435363738", 0, 0),
    ("JSLI visits x3132333435363738 1", "V 0", 1, 2),
    ("JSLI visits x", "V 0", 2, 3),
    ("JSLI visits x", "V 0", 2, 3),
    ("JSLA visits x 4", "V 4", 2, 3),
    ("JSLA visits x 4", "V 8", 2, 3),
    ("JSLL visits x32", "V 1 x3132333435363738", 2, 3),
    ("JSLD visits x3132333435363738", "1", 1, 1),
    ("JSLD visits x3132333435363738", "0", 1, 1),
    ("JSLK visits x3132333435363738 5", "NULL", 2, 3),
    ("JSLX visits x3132333435363738 5 6", "V 5", 2, 3),
    ("JSLD visits x3132333435363738 5", "0", 2, 3),
    ("JSLT visits x3132333435363738", "V 6", 1, 1),
    ("JSLFA visits", "N 1", 0, 0),
];

#[test]
fn a_string_map(rt: HostRuntime) -> Result<(), Fail> {
    check(&rt, rt.alloc(), Kind::Str, &OF_A_STRING_MAP)
}

static OF_A_BYTE_MAP: [(&str, &str, u64, u64); 11] = [
    ("JHSI visits x0000000000000000 1", "V 0", 1, 2),
    ("JHSI visits x0000000000000000 2", "V 1", 1, 2),
    ("JHSA visits x0000000000000000 5", "V 7", 1, 2),
    ("JHSA visits x0000000000000000 5", "V 12", 1, 2),
    ("JHSG visits x00", "NULL", 1, 2),
    ("JHSD visits x00", "0", 1, 2),
    ("JHSK visits x00 5", "NULL", 2, 3),
    ("JHSX visits x00 5 6", "V 5", 2, 3),
    ("JHSD visits x00 6", "1", 1, 2),
    ("JHST visits x00", "NULL", 1, 2),
    ("JHSFA visits", "N 1", 0, 0),
];

#[test]
fn a_byte_map(rt: HostRuntime) -> Result<(), Fail> {
    check(&rt, rt.alloc(), Kind::Bytes, &OF_A_BYTE_MAP)
}

fn name() -> Result<Name, Fail> {
    Ok(Name::read(b"visits").ok_or("a name")?)
}

fn key(bytes: &[u8]) -> Result<Key<'_>, Fail> {
    Ok(Key::read(bytes).ok_or("a key")?)
}

#[test]
fn what_calls_are_of(rt: HostRuntime) -> Result<(), Fail> {
    holds(&rt, array_of(&Call::Used).is_none());
    holds(&rt, array_of(&Call::Names(ArraysFrom::First, 1)).is_none());
    let call = Call::Str(name()?, StrCall::Get(key(b"a\0b")?));
    let (kind, named) = array_of(&call).ok_or("an array")?;
    same(&rt, kind, Kind::Str);
    holds(&rt, *named == name()?);
    holds(&rt, !is_callable(&call));
    holds(&rt, is_callable(&Call::Used));
    holds(&rt, !call.inserts());
    Ok(())
}
