//! Calls by their lines, and replies of rows as plain data that a constant can hold.
use judy_model::{Call, IndexText, KEY_LIMIT, Key, LIST_LIMIT, Name, Reply, Text};
use judy_protocol::{Line, read_line};
use std::test::Fail;

/// The name of these bytes, or `a` if they are no name.
pub fn name(text: &str) -> Name {
    Name::read(text.as_bytes()).unwrap_or(Name::of(b"a"))
}

/// A key of at most 1,000 bytes; the empty key if there are more.
pub fn key(bytes: &[u8]) -> Key<'_> {
    Key::read(bytes).unwrap_or(Key::of(&[]))
}

/// The text of entries, of at most as many bytes as fit; none if there are more.
pub fn text(bytes: &[u8]) -> Text<'_> {
    if bytes.len() > LIST_LIMIT {
        return Text::of(&[]);
    }
    Text::of(bytes)
}

/// The call of a line.
pub fn call_of<'a>(line: &str, room: &'a mut [u8; KEY_LIMIT]) -> Result<Call<'a>, Fail> {
    match read_line(line.as_bytes(), room) {
        Ok(Line::Call(call)) => Ok(call),
        _ => Err("a call")?,
    }
}

/// A reply. A key is its bytes.
#[derive(Clone, Copy)]
pub enum Want {
    /// Yes or no.
    Int(bool),
    /// An index.
    Index(u64),
    /// A number of entries.
    Count(u64),
    /// A value.
    Value(u64),
    /// A value and its index.
    ValueAt(u64, u64),
    /// A value and its key.
    ValueKey(u64, &'static [u8]),
    /// How many entries there are, and their text.
    Entries(u16, &'static [u8]),
    /// Where an intersection goes on, how many indexes there are, and their text.
    Intersection(u64, u16, &'static [u8]),
    /// Nothing is found.
    Null,
    /// The entries, their quota, the pieces and their quota.
    Used(u64, u64, u64, u64),
    /// The quota is reached.
    Full,
    /// The right is to look.
    ReadOnly,
    /// The tenant is frozen.
    Frozen,
    /// Out of memory.
    Memory,
}

/// The reply that a row should give.
pub fn reply_of(want: Want) -> Reply<'static> {
    match want {
        Want::Int(yes) => Reply::Int(yes),
        Want::Index(index) => Reply::Index(index),
        Want::Count(count) => Reply::Count(count),
        Want::Value(value) => Reply::Value(value),
        Want::ValueAt(value, index) => Reply::ValueAt(value, index),
        Want::ValueKey(value, bytes) => Reply::ValueKey(value, key(bytes)),
        Want::Entries(count, bytes) => Reply::Entries(count, text(bytes)),
        Want::Intersection(next, count, bytes) => {
            Reply::Intersection(next, count, IndexText::of(bytes))
        }
        Want::Null => Reply::Null,
        Want::Used(entries, quota, pieces, most) => Reply::Used(entries, quota, pieces, most),
        Want::Full => Reply::Full,
        Want::ReadOnly => Reply::ReadOnly,
        Want::Frozen => Reply::Frozen,
        Want::Memory => Reply::Memory,
    }
}
