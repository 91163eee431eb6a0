//! Worked rows: calls of one tenant, each with the reply that it should give.
use crate::checks::{same, same_at};
use crate::lines::asks::{Want, call_of, name, reply_of};
use judy_model::{Call, ENTRY_PIECES_LIMIT, KEY_LIMIT, OneCall, Quota, Reply, ReplyRoom, Right};
use judy_reference::Store;
use std::alloc::Global;
use std::process::Abort;
use std::test::Fail;

const MAX: u64 = 18446744073709551615;

/// A tenant with a quota, and its store.
#[derive(Drop)]
struct Tenant {
    alloc: Global,
    quota: Quota,
    store: Store,
    found: ReplyRoom,
}

impl Tenant {
    fn new(alloc: Global, entries: u32) -> Tenant {
        let entries = u64::from(entries);
        Tenant::within(
            alloc,
            Quota {
                entries,
                pieces: entries * ENTRY_PIECES_LIMIT,
            },
        )
    }

    fn within(alloc: Global, quota: Quota) -> Tenant {
        Tenant {
            alloc,
            quota,
            store: Store::new(alloc),
            found: ReplyRoom::new(),
        }
    }

    fn ask(&mut self, right: Right, call: &Call<'_>) -> Reply<'_> {
        let found = &mut self.found;
        match self.store.step(self.alloc, right, self.quota, call, found) {
            Ok(reply) => reply,
            Err(_) => Reply::Memory,
        }
    }
}

/// Asks for the line of each row in turn under a right, and compares the reply.
fn compare_under(
    rt: &impl Abort,
    tenant: &mut Tenant,
    right: Right,
    rows: &[(&str, Want)],
) -> Result<(), Fail> {
    for (line, want) in rows {
        let mut room = [0; KEY_LIMIT];
        let call = call_of(line, &mut room)?;
        same_at(rt, tenant.ask(right, &call), reply_of(*want), call);
    }
    Ok(())
}

/// The same with the right to change.
fn compare(rt: &impl Abort, tenant: &mut Tenant, rows: &[(&str, Want)]) -> Result<(), Fail> {
    compare_under(rt, tenant, Right::Change, rows)
}

static OF_EMPTY_ARRAYS: [(&str, Want); 4] = [
    ("J1C a 0 -1", Want::Count(0)),
    ("J1FE a 0", Want::Index(0)),
    ("JLG a 0", Want::Null),
    ("J1FA a", Want::Count(0)),
];

#[test]
fn empty_arrays(rt: HostRuntime) -> Result<(), Fail> {
    compare(&rt, &mut Tenant::new(rt.alloc(), 4), &OF_EMPTY_ARRAYS)?;
    Ok(())
}

static AT_ENDS_OF_THE_RANGE: [(&str, Want); 9] = [
    ("J1S a 0", Want::Int(true)),
    ("J1S a -1", Want::Int(true)),
    ("J1N a 0", Want::Index(18446744073709551615)),
    ("J1N a -1", Want::Int(false)),
    ("J1P a 0", Want::Int(false)),
    ("J1LE a -1", Want::Index(18446744073709551614)),
    ("J1PE a 0", Want::Int(false)),
    ("J1NE a -1", Want::Int(false)),
    ("J1C a 0 -1", Want::Count(2)),
];

#[test]
fn ends_of_the_range(rt: HostRuntime) -> Result<(), Fail> {
    compare(&rt, &mut Tenant::new(rt.alloc(), 4), &AT_ENDS_OF_THE_RANGE)?;
    Ok(())
}

static AT_EDGE_OF_THE_QUOTA: [(&str, Want); 10] = [
    ("J1S a 1", Want::Int(true)),
    ("J1S a 2", Want::Int(true)),
    ("J1S a 3", Want::Int(true)),
    ("J1S a 4", Want::Int(true)),
    ("J1S a 9", Want::Full),
    ("J1S a 1", Want::Int(false)),
    ("JLI a 1 7", Want::Full),
    ("J1U a 1", Want::Int(true)),
    ("JLI a 1 7", Want::Value(0)),
    ("USED", Want::Used(4, 4, 4, 504)),
];

#[test]
fn edge_of_the_quota(rt: HostRuntime) -> Result<(), Fail> {
    let mut alice = Tenant::new(rt.alloc(), 4);
    compare(&rt, &mut alice, &AT_EDGE_OF_THE_QUOTA)?;
    same(&rt, alice.store.used(), 4);
    Ok(())
}

static WITH_QUOTA_ZERO: [(&str, Want); 4] = [
    ("J1S a 1", Want::Full),
    ("J1U a 1", Want::Int(false)),
    ("J1FE a 0", Want::Index(0)),
    ("USED", Want::Used(0, 0, 0, 0)),
];

#[test]
fn quota_zero(rt: HostRuntime) -> Result<(), Fail> {
    compare(&rt, &mut Tenant::new(rt.alloc(), 0), &WITH_QUOTA_ZERO)?;
    Ok(())
}

static RANKS: [(&str, Want); 9] = [
    ("J1S a 9", Want::Int(true)),
    ("J1S a 3", Want::Int(true)),
    ("J1S a 5", Want::Int(true)),
    ("J1C a 9 3", Want::Count(0)),
    ("J1C a 3 9", Want::Count(3)),
    ("J1BC a 0", Want::Int(false)),
    ("J1BC a 1", Want::Index(3)),
    ("J1BC a 3", Want::Index(9)),
    ("J1BC a 4", Want::Int(false)),
];

#[test]
fn ranks(rt: HostRuntime) -> Result<(), Fail> {
    compare(&rt, &mut Tenant::new(rt.alloc(), 4), &RANKS)?;
    Ok(())
}

static OF_SHARED_BYTES: [(&str, Want); 4] = [
    ("J1T a 31", Want::Int(false)),
    ("J1F a 0", Want::Index(4096)),
    ("J1C a 0 4111", Want::Count(16)),
    ("J1L a 4095", Want::Int(false)),
];

#[test]
fn shared_bytes(rt: HostRuntime) -> Result<(), Fail> {
    let mut bob = Tenant::new(rt.alloc(), 1000);
    for index in 4096..4128 {
        let reply = bob.ask(Right::Change, &Call::One(name("a"), OneCall::Set(index)));
        same_at(&rt, reply, Reply::Int(true), index);
    }
    compare(&rt, &mut bob, &OF_SHARED_BYTES)?;
    Ok(())
}

static AT_TOP_OF_THE_RANGE: [(&str, Want); 4] = [
    ("J1C a 0 -1", Want::Count(256)),
    ("J1FE a 18446744073709551360", Want::Int(false)),
    ("J1NE a 18446744073709551359", Want::Int(false)),
    ("J1LE a -1", Want::Index(18446744073709551359)),
];

#[test]
fn top_of_the_range(rt: HostRuntime) -> Result<(), Fail> {
    let mut bob = Tenant::new(rt.alloc(), 1000);
    for below in 0..256 {
        let call = Call::One(name("a"), OneCall::Set(MAX - below));
        same_at(&rt, bob.ask(Right::Change, &call), Reply::Int(true), call);
    }
    compare(&rt, &mut bob, &AT_TOP_OF_THE_RANGE)?;
    Ok(())
}

static VALUES: [(&str, Want); 11] = [
    ("JLI a 5 8", Want::Value(0)),
    ("JLI a 5", Want::Value(8)),
    ("JLI a 5 9", Want::Value(8)),
    ("JLA a 5 -1", Want::Value(8)),
    ("JLA a 5 1", Want::Value(9)),
    ("JLG a 5", Want::Value(9)),
    ("JLBC a 1", Want::ValueAt(9, 5)),
    ("JLN a 5", Want::Null),
    ("JLFE a 5", Want::Index(6)),
    ("JLD a 5", Want::Int(true)),
    ("JLD a 5", Want::Int(false)),
];

#[test]
fn values(rt: HostRuntime) -> Result<(), Fail> {
    compare(&rt, &mut Tenant::new(rt.alloc(), 4), &VALUES)?;
    Ok(())
}

static OF_ONE_NAME_AND_TWO_KINDS: [(&str, Want); 7] = [
    ("JLI a 1", Want::Value(0)),
    ("JLI a 2 9", Want::Value(0)),
    ("J1C a 0 -1", Want::Count(0)),
    ("JLL a -1", Want::ValueAt(9, 2)),
    ("JLP a 1", Want::Null),
    ("JLFA a", Want::Count(2)),
    ("JLC a 0 -1", Want::Count(0)),
];

#[test]
fn one_name_two_kinds(rt: HostRuntime) -> Result<(), Fail> {
    compare(
        &rt,
        &mut Tenant::new(rt.alloc(), 1000),
        &OF_ONE_NAME_AND_TWO_KINDS,
    )?;
    Ok(())
}

static OF_UNSIGNED_BYTES: [(&str, Want); 7] = [
    ("JSLI a x7f 1", Want::Value(0)),
    ("JSLI a x80 2", Want::Value(0)),
    ("JSLI a x7f01 3", Want::Value(0)),
    ("JSLF a x", Want::ValueKey(1, b"\x7f")),
    ("JSLN a x7f", Want::ValueKey(3, b"\x7f\x01")),
    ("JSLL a xff", Want::ValueKey(2, b"\x80")),
    ("JSLP a x7f", Want::Null),
];

#[test]
fn unsigned_bytes(rt: HostRuntime) -> Result<(), Fail> {
    compare(&rt, &mut Tenant::new(rt.alloc(), 4), &OF_UNSIGNED_BYTES)?;
    Ok(())
}

static WITH_MANY_ENTRIES: [(&str, Want); 12] = [
    ("J1S a 5", Want::Int(true)),
    ("J1S a -1", Want::Int(true)),
    ("J1F a 0 9", Want::Entries(2, b" 5 18446744073709551615")),
    ("J1P a -1 1", Want::Entries(1, b" 5")),
    ("J1N a -1 9", Want::Entries(0, b"")),
    ("J1PE a 5 2", Want::Entries(2, b" 4 3")),
    ("JLI a 7 70", Want::Value(0)),
    ("JLL a -1 65535", Want::Entries(1, b" 70 7")),
    ("JLFE a 7 2", Want::Entries(2, b" 8 9")),
    ("JSLI a x 1", Want::Value(0)),
    ("JSLF a x 2", Want::Entries(1, b" 1 x")),
    ("JSLN a x 2", Want::Entries(0, b"")),
];

#[test]
fn many_entries(rt: HostRuntime) -> Result<(), Fail> {
    compare(&rt, &mut Tenant::new(rt.alloc(), 4), &WITH_MANY_ENTRIES)?;
    Ok(())
}

static FIRST_AND_LEAST: [(&str, Want); 16] = [
    ("J1SE a 5", Want::Index(5)),
    ("J1SE a 5", Want::Index(6)),
    ("J1SE a -1", Want::Index(18446744073709551615)),
    ("J1SE a -1", Want::Int(false)),
    ("JLIE a 0 7", Want::Index(0)),
    ("JLIE a 0 7", Want::Full),
    ("J1SE a 0", Want::Full),
    ("J1SE a -1", Want::Int(false)),
    ("J1UF a 7 6", Want::Int(false)),
    ("J1UF a 0 5", Want::Index(5)),
    ("JLDF a 1 -1", Want::Null),
    ("JLDF a 0 0", Want::ValueAt(7, 0)),
    ("JSLI a x61 3", Want::Value(0)),
    ("JSLDF a x", Want::ValueKey(3, b"a")),
    ("JSLDF a x", Want::Null),
    ("J1UR a 0 -1 9", Want::Count(2)),
];

#[test]
fn the_first_of_a_range_and_the_least_absent_word(rt: HostRuntime) -> Result<(), Fail> {
    compare(&rt, &mut Tenant::new(rt.alloc(), 4), &FIRST_AND_LEAST)?;
    Ok(())
}

static ORDER_OF_STRINGS: [(&str, Want); 12] = [
    ("JSLI a x 1", Want::Value(0)),
    ("JSLI a x61626364656667 2", Want::Value(0)),
    ("JSLI a x6162636465666768 3", Want::Value(0)),
    ("JSLI a x616263646566676869 4", Want::Value(0)),
    ("JSLF a x", Want::ValueKey(1, b"")),
    ("JSLN a x", Want::ValueKey(2, b"abcdefg")),
    ("JSLN a x61626364656667", Want::ValueKey(3, b"abcdefgh")),
    ("JSLN a x6162636465666768", Want::ValueKey(4, b"abcdefghi")),
    ("JSLN a x616263646566676869", Want::Null),
    ("JSLD a x6162636465666768", Want::Int(true)),
    ("JSLN a x61626364656667", Want::ValueKey(4, b"abcdefghi")),
    ("JSLFA a", Want::Count(3)),
];

#[test]
fn order_of_strings(rt: HostRuntime) -> Result<(), Fail> {
    compare(&rt, &mut Tenant::new(rt.alloc(), 1000), &ORDER_OF_STRINGS)?;
    Ok(())
}

static BYTE_KEYS: [(&str, Want); 7] = [
    ("JHSI a x 1", Want::Value(0)),
    ("JHSI a x00 2", Want::Value(0)),
    ("JHSA a x00 3", Want::Value(5)),
    ("JHSG a x", Want::Value(1)),
    ("JHSG a x0000", Want::Null),
    ("JHSD a x", Want::Int(true)),
    ("JHSFA a", Want::Count(1)),
];

#[test]
fn byte_keys(rt: HostRuntime) -> Result<(), Fail> {
    compare(&rt, &mut Tenant::new(rt.alloc(), 4), &BYTE_KEYS)?;
    Ok(())
}

static WITHIN_A_QUOTA_OF_PIECES: [(&str, Want); 12] = [
    ("JSLI a x6162636465666768 1", Want::Value(0)),
    ("J1S a 1", Want::Int(true)),
    ("J1S a 2", Want::Full),
    ("JSLI a x6162636465666768 9", Want::Value(1)),
    ("JSLA a x6162636465666768 9", Want::Value(18)),
    ("JSLA a x 9", Want::Full),
    ("USED", Want::Used(2, 4, 3, 3)),
    ("JSLD a x6162636465666768", Want::Int(true)),
    ("JSLI a x616263646566676869 5", Want::Value(0)),
    ("USED", Want::Used(2, 4, 3, 3)),
    ("JSLFA a", Want::Count(1)),
    ("USED", Want::Used(1, 4, 1, 3)),
];

#[test]
fn a_quota_of_pieces(rt: HostRuntime) -> Result<(), Fail> {
    let quota = Quota {
        entries: 4,
        pieces: 3,
    };
    compare(
        &rt,
        &mut Tenant::within(rt.alloc(), quota),
        &WITHIN_A_QUOTA_OF_PIECES,
    )?;
    Ok(())
}

#[test]
fn a_right_to_look(rt: HostRuntime) -> Result<(), Fail> {
    let mut alice = Tenant::new(rt.alloc(), 0);
    let set = "J1S a 1";
    let test = "J1T a 1";
    compare_under(&rt, &mut alice, Right::Look, &[(set, Want::ReadOnly)])?;
    compare_under(&rt, &mut alice, Right::Change, &[(set, Want::Full)])?;
    compare_under(&rt, &mut alice, Right::Look, &[(test, Want::Int(false))])?;
    Ok(())
}

#[test]
fn a_frozen_tenant(rt: HostRuntime) -> Result<(), Fail> {
    let mut alice = Tenant::new(rt.alloc(), 0);
    let set = "J1S a 1";
    let test = "J1T a 1";
    compare_under(&rt, &mut alice, Right::Frozen, &[(set, Want::Frozen)])?;
    compare_under(&rt, &mut alice, Right::Change, &[(set, Want::Full)])?;
    compare_under(&rt, &mut alice, Right::Frozen, &[(test, Want::Int(false))])?;
    Ok(())
}
