//! Worked rows: the calls of lines, each with the text of the reply that it should get.
use crate::checks::{same, same_at};
use crate::tenants::house::House;
use crate::tenants::spelled::{call_of, compare};
use judy_model::{Call, KEY_LIMIT, Name, OneCall, Reply};
use judy_tenants::Speaker;
use std::alloc::Global;
use std::process::Abort;
use std::test::Fail;

/// alice has the token `abc` and the read-only token `hello`; bob has the token `hello`.
const TABLE: &str = r#"
[alice]
sha256 = "ba7816bf8f01cfea414140de5dae2223b00361a396177a9cb410ff61f20015ad"
read_sha256 = "2cf24dba5fb0a30e26e83b2ac5b9e29e1b161e5c1fa7425e73043362938b9824"
quota = 4
[bob]
sha256 = "2cf24dba5fb0a30e26e83b2ac5b9e29e1b161e5c1fa7425e73043362938b9824"
quota = 1000
"#;

/// alice may have no entry; bob's two tokens are equal.
const NOTHING: &str = r#"
[alice]
sha256 = "ba7816bf8f01cfea414140de5dae2223b00361a396177a9cb410ff61f20015ad"
read_sha256 = "2cf24dba5fb0a30e26e83b2ac5b9e29e1b161e5c1fa7425e73043362938b9824"
quota = 0
[bob]
sha256 = "2cf24dba5fb0a30e26e83b2ac5b9e29e1b161e5c1fa7425e73043362938b9824"
read_sha256 = "2cf24dba5fb0a30e26e83b2ac5b9e29e1b161e5c1fa7425e73043362938b9824"
quota = 1
"#;

/// alice may have 4 entries of 3 pieces.
const PIECES: &str = r#"
[alice]
sha256 = "ba7816bf8f01cfea414140de5dae2223b00361a396177a9cb410ff61f20015ad"
quota = 4
pieces = 3
"#;

/// Checks that the calls of these lines get these replies, one after another.
pub(crate) fn ask(
    rt: &impl Abort,
    house: &mut House,
    speaker: &Speaker,
    rows: &[(&str, &str)],
) -> Result<(), Fail> {
    for (line, want) in rows {
        let mut room = [0; KEY_LIMIT];
        let call = call_of(line, &mut room)?;
        let reply = house.ask(rt, speaker, &call);
        compare(rt, line, &reply, want);
    }
    Ok(())
}

/// bob sets the indexes from the first to the last in a set of this name. They are all new.
fn fill(
    rt: &impl Abort,
    house: &mut House,
    bob: &Speaker,
    theirs: &str,
    first: u64,
    last: u64,
) -> Result<(), Fail> {
    for x in first..=last {
        let name = Name::read(theirs.as_bytes()).ok_or("a name")?;
        let reply = house.ask(rt, bob, &Call::One(name, OneCall::Set(x)));
        same_at(rt, reply.reply(), Reply::Int(true), x);
    }
    Ok(())
}

/// alice's calls at the edge of her quota.
static EDGE: [(&str, &str); 10] = [
    ("J1S a 1", "1"),
    ("J1S a 2", "1"),
    ("J1S a 3", "1"),
    ("J1S a 4", "1"),
    ("J1S a 9", "FULL"),
    ("J1S a 1", "0"),
    ("JLI l 1 7", "FULL"),
    ("J1U a 1", "1"),
    ("JLI l 1 7", "V 0"),
    ("USED", "Q 4 4 4 504"),
];

static OF_BOB_AT_THE_END: [(&str, &str); 1] = [("USED", "Q 1000 1000 1000 126000")];

static OF_ALICE_AT_THE_END: [(&str, &str); 2] = [("J1C a 0 -1", "N 3"), ("J1N a 4", "0")];

/// alice comes to the edge of her quota while bob comes to the edge of his, in a set of this name.
fn meet_in(rt: &impl Abort, house: &mut House, theirs: &str) -> Result<(), Fail> {
    let alice = house.speaker("alice", "abc")?;
    let bob = house.speaker("bob", "hello")?;
    let mut next: u64 = 1;
    for row in &EDGE {
        fill(rt, house, &bob, theirs, next, next.saturating_add(99))?;
        next = next.saturating_add(100);
        ask(rt, house, &alice, &[*row])?;
    }
    let name = Name::read(theirs.as_bytes()).ok_or("a name")?;
    let last = house.ask(rt, &bob, &Call::One(name, OneCall::Set(1_001)));
    same(rt, last.reply(), Reply::Full);
    ask(rt, house, &bob, &OF_BOB_AT_THE_END)?;
    ask(rt, house, &alice, &OF_ALICE_AT_THE_END)
}

/// The same in a service of the two tenants.
fn neighbours(rt: &impl Abort, alloc: Global, theirs: &str) -> Result<(), Fail> {
    let mut house = House::new(rt, alloc, TABLE)?;
    meet_in(rt, &mut house, theirs)
}

#[test]
fn noisy_neighbour(rt: HostRuntime) -> Result<(), Fail> {
    neighbours(&rt, rt.alloc(), "b")
}

#[test]
fn noisy_neighbour_of_one_name(rt: HostRuntime) -> Result<(), Fail> {
    neighbours(&rt, rt.alloc(), "a")
}

/// Checks the calls of one speaker of a table.
fn check(
    rt: &impl Abort,
    alloc: Global,
    table: &str,
    (name, token): (&str, &str),
    rows: &[(&str, &str)],
) -> Result<(), Fail> {
    let mut house = House::new(rt, alloc, table)?;
    let speaker = house.speaker(name, token)?;
    ask(rt, &mut house, &speaker, rows)
}

static WITH_QUOTA_ZERO: [(&str, &str); 4] = [
    ("J1S a 1", "FULL"),
    ("J1U a 1", "0"),
    ("J1FE a 0", "1 0"),
    ("USED", "Q 0 0 0 0"),
];

static LOOKING_WITH_QUOTA_ZERO: [(&str, &str); 1] = [("J1S a 1", "ERR READONLY")];

#[test]
fn quota_zero(rt: HostRuntime) -> Result<(), Fail> {
    let mut house = House::new(&rt, rt.alloc(), NOTHING)?;
    let alice = house.speaker("alice", "abc")?;
    let looker = house.speaker("alice", "hello")?;
    ask(&rt, &mut house, &alice, &WITH_QUOTA_ZERO)?;
    ask(&rt, &mut house, &looker, &LOOKING_WITH_QUOTA_ZERO)
}

static WITH_A_QUOTA_OF_PIECES: [(&str, &str); 12] = [
    ("JSLI s x6162636465666768 1", "V 0"),
    ("J1S a 1", "1"),
    ("J1S a 2", "FULL"),
    ("JSLI s x6162636465666768 9", "V 1"),
    ("JSLA s x6162636465666768 9", "V 18"),
    ("JSLA s x 9", "FULL"),
    ("USED", "Q 2 4 3 3"),
    ("JSLD s x6162636465666768", "1"),
    ("JSLI s x616263646566676869 5", "V 0"),
    ("USED", "Q 2 4 3 3"),
    ("JSLFA s", "N 1"),
    ("USED", "Q 1 4 1 3"),
];

#[test]
fn quota_of_pieces(rt: HostRuntime) -> Result<(), Fail> {
    check(
        &rt,
        rt.alloc(),
        PIECES,
        ("alice", "abc"),
        &WITH_A_QUOTA_OF_PIECES,
    )
}

static LOOKING: [(&str, &str); 6] = [
    ("J1S a 1", "ERR READONLY"),
    ("J1T a 1", "0"),
    ("J1FA a", "ERR READONLY"),
    ("JLA l 1 1", "ERR READONLY"),
    ("JSLA s x61 1", "ERR READONLY"),
    ("JHSA h x61 1", "ERR READONLY"),
];

static CHANGING: [(&str, &str); 1] = [("J1S a 1", "1")];

static LOOKING_AGAIN: [(&str, &str); 3] = [
    ("J1T a 1", "1"),
    ("J1U a 1", "ERR READONLY"),
    ("USED", "Q 1 4 1 504"),
];

#[test]
fn reading_token(rt: HostRuntime) -> Result<(), Fail> {
    let mut house = House::new(&rt, rt.alloc(), TABLE)?;
    let alice = house.speaker("alice", "abc")?;
    let looker = house.speaker("alice", "hello")?;
    same(&rt, house.login("alice", "abd"), None);
    ask(&rt, &mut house, &looker, &LOOKING)?;
    ask(&rt, &mut house, &alice, &CHANGING)?;
    ask(&rt, &mut house, &looker, &LOOKING_AGAIN)
}

static WITH_ONE_TOKEN: [(&str, &str); 2] = [("J1S a 1", "1"), ("J1S a 2", "FULL")];

/// A tenant whose two tokens are equal may change its arrays.
#[test]
fn one_token_for_both(rt: HostRuntime) -> Result<(), Fail> {
    check(&rt, rt.alloc(), NOTHING, ("bob", "hello"), &WITH_ONE_TOKEN)
}
