//! Worked rows: two tenants at once, many names of both, and a first entry when memory runs out. Each
//! row may be run with any one request for memory refused.
use crate::checks::same;
use crate::tenants::house::House;
use crate::tenants::lines::ask;
use arrayvec::ArrayString;
use judy_model::{Call, Given, LongCall, NAME_LIMIT, Name, OneCall, Reply};
use judy_tenants::{Event, Speaker};
use std::fmt::Write;
use std::io::Print;
use std::process::Abort;
use std::test::Fail;

/// alice has the token `abc`, bob has the token `hello`.
const TABLE: &str = r#"
[alice]
sha256 = "ba7816bf8f01cfea414140de5dae2223b00361a396177a9cb410ff61f20015ad"
quota = 4
[bob]
sha256 = "2cf24dba5fb0a30e26e83b2ac5b9e29e1b161e5c1fa7425e73043362938b9824"
quota = 1000
"#;

/// The name made of `n` and a number.
fn numbered(number: u32) -> Result<Name, Fail> {
    let mut text: ArrayString<NAME_LIMIT> = ArrayString::new();
    write!(text, "n{number}")?;
    Ok(Name::read(text.as_str().as_bytes()).ok_or("no name")?)
}

/// A call of bob's sets of 300 names, more than are guaranteed a place. Each gets this reply.
fn each(
    rt: &impl Abort,
    house: &mut House,
    bob: &Speaker,
    call: OneCall,
    want: &Reply<'_>,
) -> Result<(), Fail> {
    for i in 0..300u32 {
        let reply = house.ask(rt, bob, &Call::One(numbered(i)?, call));
        assert_eq!(rt; reply.reply(), *want, "{call:?} of the name {i}");
    }
    Ok(())
}

/// alice uses the name of one of bob's sets.
static OF_ALICE: [(&str, &str); 2] = [("J1T n299 1", "0"), ("J1S n299 7", "1")];

static OF_BOB: [(&str, &str); 3] = [("J1T n299 1", "1"), ("J1FA n0", "N 1"), ("J1S n0 1", "1")];

static OF_ALICE_AT_THE_END: [(&str, &str); 2] = [("J1F n299 0", "1 7"), ("J1FA n299", "N 1")];

fn many_names_in(rt: &impl Abort, house: &mut House) -> Result<(), Fail> {
    let alice = house.speaker("alice", "abc")?;
    let bob = house.speaker("bob", "hello")?;
    each(rt, house, &bob, OneCall::Set(1), &Reply::Int(true))?;
    ask(rt, house, &alice, &OF_ALICE)?;
    ask(rt, house, &bob, &OF_BOB)?;
    same(rt, house.live_words(), 1_204);
    each(rt, house, &bob, OneCall::Free, &Reply::Count(1))?;
    ask(rt, house, &alice, &OF_ALICE_AT_THE_END)?;
    same(rt, house.live_words(), 0);
    Ok(())
}

#[test]
fn many_names(rt: HostRuntime) -> Result<(), Fail> {
    let mut house = House::new(&rt, rt.alloc(), TABLE)?;
    many_names_in(&rt, &mut house)
}

static REFUSED: [(&str, &str); 2] = [("J1T n1 1", "0"), ("USED", "Q 0 4 0 504")];

static THERE: [(&str, &str); 2] = [("J1T n1 1", "1"), ("USED", "Q 1 4 1 504")];

/// The first entry is refused if its request for memory is, and succeeds once there is memory
/// again. Nothing else differs.
fn no_memory_in<R: Abort + Print>(rt: &R, house: &mut House) -> Result<(), Fail> {
    let alice = house.speaker("alice", "abc")?;
    let first = Call::One(numbered(1)?, OneCall::Set(1));
    if house.try_ask(rt, &alice, &first).reply() == Reply::Memory {
        println!(rt; "ERR MEMORY")?;
        ask(rt, house, &alice, &REFUSED)?;
        let again = house.try_ask(rt, &alice, &first);
        same(rt, again.reply(), Reply::Int(true));
    }
    ask(rt, house, &alice, &THERE)
}

#[test]
fn no_memory(rt: HostRuntime) -> Result<(), Fail> {
    let mut house = House::new(&rt, rt.alloc(), TABLE)?;
    no_memory_in(&rt, &mut house)
}

/// An addition that is refused adds nothing, and succeeds once there is memory again. One to a
/// present entry is never refused.
fn no_memory_for_a_counter_in<R: Abort + Print>(rt: &R, house: &mut House) -> Result<(), Fail> {
    let alice = house.speaker("alice", "abc")?;
    let add = Call::Long(numbered(1)?, LongCall::Insert(1, Given::Plus(5)));
    if house.try_ask(rt, &alice, &add).reply() == Reply::Memory {
        println!(rt; "ERR MEMORY")?;
        let get = Call::Long(numbered(1)?, LongCall::Get(1));
        same(rt, house.ask(rt, &alice, &get).reply(), Reply::Null);
        same(rt, house.try_ask(rt, &alice, &add).reply(), Reply::Value(5));
    }
    same(
        rt,
        house.try_ask(rt, &alice, &add).reply(),
        Reply::Value(10),
    );
    Ok(())
}

#[test]
fn no_memory_for_a_counter(rt: HostRuntime) -> Result<(), Fail> {
    let mut house = House::new(&rt, rt.alloc(), TABLE)?;
    no_memory_for_a_counter_in(&rt, &mut house)
}

/// The event of a call of the array `n1`.
fn event(speaker: Speaker, call: OneCall) -> Result<Event<'static>, Fail> {
    let call = Call::One(numbered(1)?, call);
    Ok(Event { speaker, call })
}

/// Calls of two tenants with the same name, made at once. Neither sees the other's array.
fn two_tenants_at_once_in<R: Abort + Print>(rt: &R, house: &mut House) -> Result<(), Fail> {
    let alice = house.speaker("alice", "abc")?;
    let bob = house.speaker("bob", "hello")?;
    let events = [
        event(alice, OneCall::Set(5))?,
        event(bob, OneCall::Test(5))?,
        event(bob, OneCall::Set(5))?,
        event(alice, OneCall::Unset(5))?,
        event(bob, OneCall::Test(5))?,
        event(alice, OneCall::First(0))?,
    ];
    let wants = [true, false, true, true, true, false];
    let replies = house.replay(rt, &events)?;
    same(rt, replies.len(), wants.len());
    for (reply, want) in replies.iter().zip(wants) {
        if reply.reply() == Reply::Memory {
            println!(rt; "ERR MEMORY")?;
            return Ok(());
        }
        same(rt, reply.reply(), Reply::Int(want));
    }
    Ok(())
}

#[test]
fn two_tenants_at_once(rt: HostRuntime) -> Result<(), Fail> {
    let mut house = House::new(&rt, rt.alloc(), TABLE)?;
    two_tenants_at_once_in(&rt, &mut house)
}
