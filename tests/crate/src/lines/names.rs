//! Names, keys and tokens: which bytes are valid, and how they compare.
use crate::checks::{holds, same, same_at};
use judy_model::{Key, Name, Token};
use std::cmp::Ordering;
use std::test::Fail;

// Which bytes are a name, a key and a token.
static TEXTS: [(&[u8], bool, bool, bool); 6] = [
    (b"alice", true, true, true),
    (b"al.ice", true, true, true),
    (b"al ice", false, true, false),
    (b"", false, true, false),
    (b"\x00\xff", false, true, false),
    (b"a c", false, true, false),
];

#[test]
fn which_bytes_they_are(rt: HostRuntime) {
    for (bytes, name, key, token) in &TEXTS {
        let found = (
            Name::read(bytes).is_some(),
            Key::read(bytes).is_some(),
            Token::read(bytes).is_some(),
        );
        same_at(&rt, found, (*name, *key, *token), bytes);
    }
    holds(&rt, Key::read(&[7; 1001]).is_none());
}

#[test]
fn the_bytes_of_a_name(rt: HostRuntime) -> Result<(), Fail> {
    let alice = Name::read(b"alice").ok_or("alice is a name")?;
    same(&rt, alice.as_bytes(), b"alice".as_slice());
    same(&rt, alice.copied(), alice);
    Ok(())
}

#[test]
fn the_order_of_names(rt: HostRuntime) -> Result<(), Fail> {
    let alice = Name::read(b"alice").ok_or("alice is a name")?;
    let dotted = Name::read(b"al.ice").ok_or("al.ice is a name")?;
    holds(&rt, alice != dotted);
    same(&rt, dotted.cmp(&alice), Ordering::Less);
    same(&rt, alice.partial_cmp(&dotted), Some(Ordering::Greater));
    Ok(())
}

#[test]
fn the_bytes_of_a_key_and_of_a_token(rt: HostRuntime) -> Result<(), Fail> {
    let key = Key::read(b"\x00\xff").ok_or("two bytes are a key")?;
    same(&rt, key.as_bytes(), b"\x00\xff".as_slice());
    same(&rt, key.copied(), key);
    let token = Token::read(b"abc").ok_or("abc is a token")?;
    same(&rt, token.as_bytes(), b"abc".as_slice());
    Ok(())
}

#[test]
fn tokens_are_not_shown(rt: HostRuntime) -> Result<(), Fail> {
    let token = Token::read(b"abc").ok_or("abc is a token")?;
    same(&rt, format!(in rt.alloc(); "{token:?}")?.as_str(), "Token");
    Ok(())
}
