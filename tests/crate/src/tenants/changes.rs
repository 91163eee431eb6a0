//! Another table is put in force: what tenants that stay, come and go have.
use crate::checks::{holds, same, same_at};
use crate::tenants::house::House;
use judy_model::{Call, Name, OneCall, Reply};
use judy_tenants::Speaker;
use std::process::Abort;
use std::test::Fail;

// Tables of tenants with the token `abc`: alice may have 2 entries, or 1, or none, and bob 9.
const BOTH: &str = "[alice]
sha256 = \"ba7816bf8f01cfea414140de5dae2223b00361a396177a9cb410ff61f20015ad\"
quota = 2
[bob]
sha256 = \"ba7816bf8f01cfea414140de5dae2223b00361a396177a9cb410ff61f20015ad\"
quota = 9
";

const ALICE: &str = "[alice]
sha256 = \"ba7816bf8f01cfea414140de5dae2223b00361a396177a9cb410ff61f20015ad\"
quota = 1
";

const NOTHING: &str = "[alice]
sha256 = \"ba7816bf8f01cfea414140de5dae2223b00361a396177a9cb410ff61f20015ad\"
quota = 0
";

/// Checks the reply to a call of the set `ids`.
fn ids(
    rt: &impl Abort,
    house: &mut House,
    speaker: &Speaker,
    call: OneCall,
    want: Reply<'_>,
) -> Result<(), Fail> {
    let name = Name::read(b"ids").ok_or("no name")?;
    let reply = house.ask(rt, speaker, &Call::One(name, call));
    same_at(rt, reply.reply(), want, call);
    Ok(())
}

/// A tenant that stays keeps its entries, under its new quota.
#[test]
fn one_stays(rt: HostRuntime) -> Result<(), Fail> {
    let mut house = House::new(&rt, rt.alloc(), BOTH)?;
    let alice = house.speaker("alice", "abc")?;
    ids(&rt, &mut house, &alice, OneCall::Set(5), Reply::Int(true))?;
    same(&rt, house.change(&rt, ALICE)?, true);
    ids(&rt, &mut house, &alice, OneCall::Set(6), Reply::Full)?;
    ids(&rt, &mut house, &alice, OneCall::Test(5), Reply::Int(true))
}

/// The arrays of a tenant that is gone are freed, also for a tenant of its name in a later table.
fn one_goes_in(rt: &impl Abort, house: &mut House) -> Result<(), Fail> {
    let alice = house.speaker("alice", "abc")?;
    let bob = house.speaker("bob", "abc")?;
    ids(rt, house, &alice, OneCall::Set(5), Reply::Int(true))?;
    let words = house.live_words();
    ids(rt, house, &bob, OneCall::Set(7), Reply::Int(true))?;
    same(rt, house.change(rt, ALICE)?, true);
    same(rt, house.live_words(), words);
    same(rt, house.change(rt, BOTH)?, true);
    let again = house.speaker("bob", "abc")?;
    ids(rt, house, &again, OneCall::Test(7), Reply::Int(false))
}

#[test]
fn one_goes(rt: HostRuntime) -> Result<(), Fail> {
    let mut house = House::new(&rt, rt.alloc(), BOTH)?;
    one_goes_in(&rt, &mut house)
}

/// A tenant that is gone may not log in, and who had logged in as it may not speak.
fn who_may_speak_in(rt: &impl Abort, house: &mut House) -> Result<(), Fail> {
    let alice = house.speaker("alice", "abc")?;
    let bob = house.speaker("bob", "abc")?;
    same(rt, house.change(rt, ALICE)?, true);
    same(rt, house.login("bob", "abc"), None);
    same(rt, house.login("alice", "abc"), Some(alice));
    holds(rt, house.knows(&alice) && !house.knows(&bob));
    Ok(())
}

#[test]
fn who_may_speak(rt: HostRuntime) -> Result<(), Fail> {
    let mut house = House::new(&rt, rt.alloc(), BOTH)?;
    who_may_speak_in(&rt, &mut house)
}

/// A quota below what is held changes nothing.
fn a_quota_below_what_is_held_in(rt: &impl Abort, house: &mut House) -> Result<(), Fail> {
    let alice = house.speaker("alice", "abc")?;
    let bob = house.speaker("bob", "abc")?;
    ids(rt, house, &alice, OneCall::Set(5), Reply::Int(true))?;
    ids(rt, house, &bob, OneCall::Set(7), Reply::Int(true))?;
    same(rt, house.change(rt, NOTHING)?, false);
    same(rt, house.knows(&bob), true);
    ids(rt, house, &bob, OneCall::Test(7), Reply::Int(true))?;
    ids(rt, house, &alice, OneCall::Set(6), Reply::Int(true))
}

#[test]
fn a_quota_below_what_is_held(rt: HostRuntime) -> Result<(), Fail> {
    let mut house = House::new(&rt, rt.alloc(), BOTH)?;
    a_quota_below_what_is_held_in(&rt, &mut house)
}
