//! A tenant is frozen and thawed: what its tokens may do meanwhile, and what another tenant may.
use crate::checks::{holds, holds_at, same, same_at};
use crate::tenants::house::House;
use crate::tenants::lines::ask;
use judy_table::{Right, read_digest};
use std::process::Abort;
use std::test::Fail;

/// alice has the token `abc` and the read-only token `hello`; bob has the token `abc`.
const BOTH: &str = r#"
[alice]
sha256 = "ba7816bf8f01cfea414140de5dae2223b00361a396177a9cb410ff61f20015ad"
read_sha256 = "2cf24dba5fb0a30e26e83b2ac5b9e29e1b161e5c1fa7425e73043362938b9824"
quota = 2
[bob]
sha256 = "ba7816bf8f01cfea414140de5dae2223b00361a396177a9cb410ff61f20015ad"
quota = 9
"#;

/// The same with another quota for alice, without bob, and with carol.
const LATER: &str = r#"
[alice]
sha256 = "ba7816bf8f01cfea414140de5dae2223b00361a396177a9cb410ff61f20015ad"
read_sha256 = "2cf24dba5fb0a30e26e83b2ac5b9e29e1b161e5c1fa7425e73043362938b9824"
quota = 1
[carol]
sha256 = "ba7816bf8f01cfea414140de5dae2223b00361a396177a9cb410ff61f20015ad"
quota = 9
"#;

/// The SHA-256 of the token `look`.
const LOOK: &str = "3c01eba119e00d79c82b6f65d70bc5f1044d568618bf41377e6d1432023fc2b8";

/// The SHA-256 of the token `hello`.
const HELLO: &str = "2CF24DBA5FB0A30E26E83B2AC5B9E29E1B161E5C1FA7425E73043362938B9824";

/// The right of a log-in.
fn right(house: &House, name: &str, token: &str) -> Option<Right> {
    let speaker = house.login(name, token)?;
    Some(speaker.right)
}

/// The rights of log-ins.
fn compare_rights(rt: &impl Abort, house: &House, rows: &[(&str, &str, Option<Right>)]) {
    for (row, (name, token, want)) in rows.iter().enumerate() {
        same_at(rt, right(house, name, token), *want, ("row", row));
    }
}

static FROZEN_RIGHTS: [(&str, &str, Option<Right>); 6] = [
    ("alice", "look", Some(Right::Change)),
    ("alice", "abc", Some(Right::Frozen)),
    ("alice", "hello", Some(Right::Look)),
    ("alice", "abd", None),
    ("bob", "abc", Some(Right::Change)),
    ("bob", "look", None),
];

static THAWED_RIGHTS: [(&str, &str, Option<Right>); 4] = [
    ("alice", "look", None),
    ("alice", "abc", Some(Right::Change)),
    ("alice", "hello", Some(Right::Look)),
    ("bob", "abc", Some(Right::Change)),
];

static REPLACED_RIGHTS: [(&str, &str, Option<Right>); 3] = [
    ("alice", "look", None),
    ("alice", "abc", Some(Right::Frozen)),
    ("alice", "hello", Some(Right::Change)),
];

#[test]
fn rights(rt: HostRuntime) -> Result<(), Fail> {
    let mut house = House::new(&rt, rt.alloc(), BOTH)?;
    compare_rights(&rt, &house, &THAWED_RIGHTS);
    holds(&rt, house.freeze("alice", LOOK)?);
    compare_rights(&rt, &house, &FROZEN_RIGHTS);
    holds(&rt, house.freeze("alice", HELLO)?);
    compare_rights(&rt, &house, &REPLACED_RIGHTS);
    holds(&rt, house.thaw("alice") && house.thaw("bob"));
    compare_rights(&rt, &house, &THAWED_RIGHTS);
    Ok(())
}

#[test]
fn nobody_is_frozen(rt: HostRuntime) -> Result<(), Fail> {
    let mut house = House::new(&rt, rt.alloc(), BOTH)?;
    for name in ["carol", "", "alic", "alicf"] {
        holds_at(&rt, !house.freeze(name, LOOK)?, name);
        holds_at(&rt, !house.thaw(name), name);
    }
    compare_rights(&rt, &house, &THAWED_RIGHTS);
    Ok(())
}

#[test]
fn who_goes_on(rt: HostRuntime) -> Result<(), Fail> {
    let mut house = House::new(&rt, rt.alloc(), BOTH)?;
    let writer = house.speaker("alice", "abc")?;
    let reader = house.speaker("alice", "hello")?;
    let bob = house.speaker("bob", "abc")?;
    holds(&rt, house.freeze("alice", LOOK)?);
    let loader = house.speaker("alice", "look")?;
    let waiting = house.speaker("alice", "abc")?;
    holds(&rt, house.knows(&loader) && house.knows(&waiting));
    holds(&rt, house.knows(&reader) && house.knows(&bob));
    holds_at(&rt, !house.knows(&writer), "no right to change");
    holds(&rt, house.thaw("alice"));
    holds(&rt, house.knows(&writer) && house.knows(&reader));
    holds_at(&rt, !house.knows(&loader), "no freeze");
    holds_at(&rt, !house.knows(&waiting), "not frozen");
    Ok(())
}

static OF_WAITING: [(&str, &str); 11] = [
    ("J1S a 1", "ERR FROZEN"),
    ("J1S a 2", "ERR FROZEN"),
    ("J1U a 9", "ERR FROZEN"),
    ("J1FA b", "ERR FROZEN"),
    ("JLI l 1 2", "ERR FROZEN"),
    ("JLA l 1 2", "ERR FROZEN"),
    ("JSLD s x61", "ERR FROZEN"),
    ("JHSFA h", "ERR FROZEN"),
    ("J1T a 1", "1"),
    ("J1F a 0", "1 1"),
    ("USED", "Q 2 2 2 252"),
];

static OF_READER: [(&str, &str); 3] = [
    ("J1S a 1", "ERR READONLY"),
    ("J1T a 1", "1"),
    ("J1C a 0 -1", "N 1"),
];

static OF_LOADER: [(&str, &str); 5] = [
    ("J1S a 3", "FULL"),
    ("JLA l 1 2", "V 7"),
    ("JLD l 1", "1"),
    ("J1S a 3", "1"),
    ("J1U a 3", "1"),
];

static BEFORE: [(&str, &str); 2] = [("J1S a 1", "1"), ("JLI l 1 5", "V 0")];

/// The right comes before the quota, and another tenant notices nothing.
#[test]
fn refusals(rt: HostRuntime) -> Result<(), Fail> {
    let mut house = House::new(&rt, rt.alloc(), BOTH)?;
    let writer = house.speaker("alice", "abc")?;
    let reader = house.speaker("alice", "hello")?;
    let bob = house.speaker("bob", "abc")?;
    ask(&rt, &mut house, &writer, &BEFORE)?;
    holds(&rt, house.freeze("alice", LOOK)?);
    let waiting = house.speaker("alice", "abc")?;
    let loader = house.speaker("alice", "look")?;
    ask(&rt, &mut house, &waiting, &OF_WAITING)?;
    ask(&rt, &mut house, &reader, &OF_READER)?;
    ask(&rt, &mut house, &bob, &BEFORE)?;
    ask(&rt, &mut house, &loader, &OF_LOADER)?;
    holds(&rt, house.thaw("alice"));
    ask(
        &rt,
        &mut house,
        &writer,
        &[("J1S a 2", "1"), ("USED", "Q 2 2 2 252")],
    )
}

/// Another table leaves a tenant that stays frozen. One that comes is not, nor one that comes again.
#[test]
fn another_table(rt: HostRuntime) -> Result<(), Fail> {
    let mut house = House::new(&rt, rt.alloc(), BOTH)?;
    holds(
        &rt,
        house.freeze("alice", LOOK)? && house.freeze("bob", LOOK)?,
    );
    let loader = house.speaker("alice", "look")?;
    same(&rt, house.change(&rt, LATER)?, true);
    holds(&rt, house.knows(&loader));
    same(&rt, right(&house, "alice", "abc"), Some(Right::Frozen));
    same(&rt, right(&house, "alice", "hello"), Some(Right::Look));
    same(&rt, right(&house, "carol", "abc"), Some(Right::Change));
    ask(
        &rt,
        &mut house,
        &loader,
        &[("J1S a 1", "1"), ("J1S a 2", "FULL")],
    )?;
    same(&rt, house.change(&rt, BOTH)?, true);
    same(&rt, right(&house, "alice", "abc"), Some(Right::Frozen));
    same(&rt, right(&house, "bob", "abc"), Some(Right::Change));
    same(&rt, right(&house, "bob", "look"), None);
    holds(&rt, house.thaw("alice"));
    same(&rt, right(&house, "alice", "abc"), Some(Right::Change));
    Ok(())
}

#[test]
fn digests(rt: HostRuntime) -> Result<(), Fail> {
    let look = read_digest(LOOK.as_bytes()).ok_or("64 digits")?;
    same(&rt, (look[0], look[31]), (0x3c, 0xb8));
    let hello = read_digest(HELLO.as_bytes()).ok_or("64 capital digits")?;
    same(&rt, (hello[0], hello[31]), (0x2c, 0x24));
    let digits = [b'0'; 65];
    for many in [0, 2, 63, 65] {
        holds_at(&rt, read_digest(&digits[..many]).is_none(), many);
    }
    holds_at(&rt, read_digest(&[b'g'; 64]).is_none(), "no digits");
    Ok(())
}
