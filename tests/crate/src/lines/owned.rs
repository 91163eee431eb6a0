//! Keys and replies that own their bytes.
use crate::checks::same;
use judy_model::{IndexText, Key, OwnedKey, OwnedReply, Reply, Text};
use std::cmp::Ordering;
use std::test::Fail;

#[test]
fn keys(rt: HostRuntime) -> Result<(), Fail> {
    let key = Key::read(b"\x00\xff").ok_or("two bytes are a key")?;
    let owned = OwnedKey::of(&key);
    same(&rt, &owned.key(), &key);
    same(&rt, &owned, &OwnedKey::of(&key));
    let least = OwnedKey::of(&Key::of(&[]));
    same(&rt, least.cmp(&owned), Ordering::Less);
    same(&rt, owned.partial_cmp(&least), Some(Ordering::Greater));
    Ok(())
}

#[test]
fn replies(rt: HostRuntime) -> Result<(), Fail> {
    let key = Key::read(b"\x00\xff").ok_or("two bytes are a key")?;
    let replies = [
        Reply::Int(true),
        Reply::Index(1),
        Reply::Count(2),
        Reply::Value(3),
        Reply::ValueAt(4, 5),
        Reply::ValueKey(6, key),
        Reply::Entries(2, Text::of(b" 7 8")),
        Reply::Intersection(9, 2, IndexText::of(b" 7 8")),
        Reply::Null,
        Reply::Used(7, 8, 9, 10),
        Reply::ReadOnly,
        Reply::Frozen,
        Reply::Full,
        Reply::Memory,
    ];
    for reply in &replies {
        same(&rt, &OwnedReply::of(reply).reply(), reply);
    }
    Ok(())
}
