//! Tables of tenants, with their faults. Each request for memory may be refused once.
use crate::checks::{holds, holds_at, same, same_at};
use arrayvec::ArrayString;
use judy_table::{Quota, Right, Table, TableFault};
use std::alloc::{AllocError, Global};
use std::fmt::Write;
use std::process::Abort;
use std::test::Fail;

const ABC: &str = "ba7816bf8f01cfea414140de5dae2223b00361a396177a9cb410ff61f20015ad";

const UPPER: &str = "BA7816BF8F01CFEA414140DE5DAE2223B00361A396177A9CB410FF61F20015AD";

// The table of a text. If memory is refused, a second try reads it.
fn parse(alloc: Global, text: &[u8]) -> Result<Table, TableFault> {
    match Table::parse(alloc, text) {
        Err(TableFault::Memory) => Table::parse(alloc, text),
        parsed => parsed,
    }
}

// The result for a table's text: its first fault, or how many tenants it has.
fn answer(alloc: Global, text: &[u8]) -> Result<usize, TableFault> {
    match parse(alloc, text) {
        Ok(table) => Ok(table.len()),
        Err(fault) => Err(fault),
    }
}

// A table's header, the text of its digest and of its quota, and its result.
type Part = (
    &'static str,
    &'static str,
    &'static str,
    Result<usize, TableFault>,
);

static FAULTY: [Part; 9] = [
    ("[alice]", ABC, "4", Ok(1)),
    ("[alice]", UPPER, "0", Ok(1)),
    ("[alice]", ABC, "16777216", Ok(1)),
    ("[alice", ABC, "4", Err(TableFault::Toml)),
    ("[\"a b\"]", ABC, "4", Err(TableFault::Name)),
    ("[alice]", "ba78", "4", Err(TableFault::Digest)),
    ("[alice]", ABC, "16777217", Err(TableFault::Quota)),
    ("[alice]", ABC, "-1", Err(TableFault::Quota)),
    ("[alice]", ABC, "\"4\"", Err(TableFault::Shape)),
];

// The text of a table of one tenant.
fn text_of(header: &str, digest: &str, quota: &str) -> Result<ArrayString<256>, Fail> {
    let mut text = ArrayString::new();
    write!(text, "{header}\nsha256 = \"{digest}\"\nquota = {quota}\n")?;
    Ok(text)
}

#[test]
fn faulty_tables(rt: HostRuntime) -> Result<(), Fail> {
    for (place, (header, digest, quota, want)) in FAULTY.iter().enumerate() {
        let text = text_of(header, digest, quota)?;
        same_at(
            &rt,
            answer(rt.alloc(), text.as_bytes()),
            *want,
            ("row", place),
        );
    }
    Ok(())
}

// A table's text, in which D stands for the digest's text in quotes, and its result.
type Row = (&'static str, Result<usize, TableFault>);

// The text of a row, with the digest.
fn spelled(line: &str) -> Result<ArrayString<512>, Fail> {
    let mut text = ArrayString::new();
    for c in line.chars() {
        if c == 'D' {
            write!(text, "\"{ABC}\"")?;
        } else {
            write!(text, "{c}")?;
        }
    }
    Ok(text)
}

// Checks the results of tables.
fn compare(rt: &impl Abort, alloc: Global, rows: &[Row]) -> Result<(), Fail> {
    for (place, (line, want)) in rows.iter().enumerate() {
        let text = spelled(line)?;
        same_at(
            rt,
            answer(alloc, text.as_bytes()),
            *want,
            ("row", place, line),
        );
    }
    Ok(())
}

static TEXTS_AND_NAMES: [Row; 21] = [
    ("", Err(TableFault::Count)),
    ("alice = 1", Err(TableFault::Shape)),
    ("# only a comment\n", Err(TableFault::Count)),
    ("# c\n[alice] # c\nsha256 = D # c\nquota = 4 # c", Ok(1)),
    ("[alice]\r\nsha256 = D\r\nquota = 4\r\n", Ok(1)),
    ("[alice]\rsha256 = D\rquota = 4\r", Err(TableFault::Toml)),
    ("alice.sha256 = D\nalice.quota = 4", Ok(1)),
    ("alice = { sha256 = D, quota = 4 }", Ok(1)),
    ("alice = { sha256 = D, quota = 4, }", Ok(1)),
    ("alice = {\n sha256 = D,\n # c\n quota = 4\n}", Ok(1)),
    ("\u{feff}[alice]\nsha256 = D\nquota = 4", Ok(1)),
    ("\u{feff}", Err(TableFault::Count)),
    (
        "\n\u{feff}[alice]\nsha256 = D\nquota = 4",
        Err(TableFault::Toml),
    ),
    ("[\"alice\"]\nsha256 = D\nquota = 4", Ok(1)),
    ("['alice']\nsha256 = D\nquota = 4", Ok(1)),
    ("[\"a\\u006cice\"]\nsha256 = D\nquota = 4", Ok(1)),
    ("[\"\"]\nsha256 = D\nquota = 4", Err(TableFault::Name)),
    ("[a.b]\nsha256 = D\nquota = 4", Err(TableFault::Shape)),
    ("[\"a.b\"]\nsha256 = D\nquota = 4", Ok(1)),
    (
        "[alice]\nsha256 = D\nquota = 4\n[alice]\nsha256 = D\nquota = 4",
        Err(TableFault::Toml),
    ),
    (
        "[alice]\nsha256 = D\nsha256 = D\nquota = 4",
        Err(TableFault::Toml),
    ),
];

#[test]
fn texts_and_names(rt: HostRuntime) -> Result<(), Fail> {
    compare(&rt, rt.alloc(), &TEXTS_AND_NAMES)
}

static OPTIONAL_KEYS: [Row; 18] = [
    (
        "[alice]\nsha256 = D\nquota = 4\nnote = 1",
        Err(TableFault::Shape),
    ),
    ("[alice]\nsha256 = D\nquota = 4\npieces = 0", Ok(1)),
    ("[alice]\nsha256 = D\nquota = 4\npieces = 2113929216", Ok(1)),
    (
        "[alice]\nsha256 = D\nquota = 4\npieces = 2113929217",
        Err(TableFault::Pieces),
    ),
    (
        "[alice]\nsha256 = D\nquota = 4\npieces = -1",
        Err(TableFault::Pieces),
    ),
    (
        "[alice]\nsha256 = D\nquota = 4\npieces = \"3\"",
        Err(TableFault::Shape),
    ),
    (
        "[alice]\nsha256 = D\nquota = 16777217\npieces = -1",
        Err(TableFault::Quota),
    ),
    ("[alice]\nsha256 = D\nquota = 4\nread_sha256 = D", Ok(1)),
    (
        "[alice]\nsha256 = D\nquota = 4\nread_sha256 = D\npieces = 4",
        Ok(1),
    ),
    (
        "[alice]\nsha256 = D\nquota = 4\nread_sha256 = 4",
        Err(TableFault::Shape),
    ),
    (
        "[alice]\nsha256 = D\nquota = -1\nread_sha256 = \"ba78\"",
        Err(TableFault::Digest),
    ),
    (
        "[alice]\nsha256 = D\nread_sha256 = D",
        Err(TableFault::Shape),
    ),
    (
        "[alice]\nsha256 = D\nquota = 4\nold_read_sha256 = D\nold_sha256 = D\nread_sha256 = D\npieces = 4",
        Ok(1),
    ),
    (
        "[alice]\nsha256 = D\nquota = 4\nold_sha256 = [D]",
        Err(TableFault::Shape),
    ),
    (
        "[alice]\nsha256 = D\nquota = 4\nold_read_sha256 = 4",
        Err(TableFault::Shape),
    ),
    (
        "[alice]\nsha256 = D\nquota = -1\nold_sha256 = \"ba78\"",
        Err(TableFault::Digest),
    ),
    (
        "[alice]\nsha256 = D\nquota = -1\nold_read_sha256 = \"\"",
        Err(TableFault::Digest),
    ),
    ("[alice]\nold_sha256 = D\nquota = 4", Err(TableFault::Shape)),
];

#[test]
fn optional_keys(rt: HostRuntime) -> Result<(), Fail> {
    compare(&rt, rt.alloc(), &OPTIONAL_KEYS)
}

static SHAPES: [Row; 9] = [
    ("[alice]\nsha256 = D", Err(TableFault::Shape)),
    ("[alice]\nquota = 4", Err(TableFault::Shape)),
    ("[alice]\nsha257 = D\nquota = 4", Err(TableFault::Shape)),
    ("[[alice]]\nsha256 = D\nquota = 4", Err(TableFault::Shape)),
    ("[alice]\nsha256 = D\nquota = 4.0", Err(TableFault::Shape)),
    ("[alice]\nsha256 = D\nquota = 1e2", Err(TableFault::Shape)),
    ("[alice]\nsha256 = D\nquota = true", Err(TableFault::Shape)),
    (
        "[alice]\nsha256 = D\nquota = 2020-01-01",
        Err(TableFault::Shape),
    ),
    ("[alice]\nsha256 = 4\nquota = 4", Err(TableFault::Shape)),
];

#[test]
fn shapes(rt: HostRuntime) -> Result<(), Fail> {
    compare(&rt, rt.alloc(), &SHAPES)
}

static NUMBERS: [Row; 9] = [
    ("[alice]\nsha256 = D\nquota = 0x10", Ok(1)),
    ("[alice]\nsha256 = D\nquota = 1_000", Ok(1)),
    ("[alice]\nsha256 = D\nquota = +4", Ok(1)),
    ("[alice]\nsha256 = D\nquota = -0", Ok(1)),
    ("[alice]\nsha256 = D\nquota = 007", Err(TableFault::Toml)),
    (
        "[alice]\nsha256 = D\nquota = 9223372036854775807",
        Err(TableFault::Quota),
    ),
    (
        "[alice]\nsha256 = D\nquota = 9223372036854775808",
        Err(TableFault::Toml),
    ),
    (
        "[alice]\nsha256 = D\nquota = -9223372036854775808",
        Err(TableFault::Quota),
    ),
    (
        "[alice]\nsha256 = D\nquota = 18446744073709551616",
        Err(TableFault::Toml),
    ),
];

#[test]
fn numbers(rt: HostRuntime) -> Result<(), Fail> {
    compare(&rt, rt.alloc(), &NUMBERS)
}

static DIGESTS_AND_ORDER: [Row; 6] = [
    ("[alice]\nsha256 = \"\"\nquota = 4", Err(TableFault::Digest)),
    (
        "[alice]\nsha256 = \"\"\"\nab\"\"\"\nquota = 4",
        Err(TableFault::Digest),
    ),
    (
        "[bob]\nsha256 = \"x\"\nquota = 4\n[\"a b\"]\nsha256 = D\nquota = -1",
        Err(TableFault::Name),
    ),
    (
        "[\"b b\"]\nsha256 = D\nquota = 4\n[alice]\nsha256 = \"x\"\nquota = -1",
        Err(TableFault::Digest),
    ),
    (
        "[alice]\nsha256 = \"x\"\nquota = 4\n[bob]\nquota = 4",
        Err(TableFault::Shape),
    ),
    (
        "[b]\nsha256 = D\nquota = 4\n[B]\nsha256 = D\nquota = 4",
        Ok(2),
    ),
];

#[test]
fn digests_and_order(rt: HostRuntime) -> Result<(), Fail> {
    compare(&rt, rt.alloc(), &DIGESTS_AND_ORDER)
}

static NO_TEXTS: [(&[u8], TableFault); 6] = [
    (b"# \xff\n", TableFault::Toml),
    (b"[\xc3\xa9]", TableFault::Toml),
    (b"[\"\xc3\xa9\"]", TableFault::Shape),
    (b"\xff\xfe[\0a\0]\0", TableFault::Toml),
    (b"# \0\n", TableFault::Toml),
    (b"\xed\xa0\x80 = 1", TableFault::Toml),
];

#[test]
fn bytes_that_are_no_text(rt: HostRuntime) {
    for (place, (bytes, want)) in NO_TEXTS.iter().enumerate() {
        same_at(&rt, answer(rt.alloc(), bytes), Err(*want), ("row", place));
    }
}

// The text of a table of this many tenants.
fn many(n: u32) -> Result<ArrayString<8192>, Fail> {
    let mut text = ArrayString::new();
    for i in 0..n {
        write!(text, "[t{i}]\nsha256 = \"{ABC}\"\nquota = {i}\n")?;
    }
    Ok(text)
}

#[test]
fn many_tenants(rt: HostRuntime) -> Result<(), Fail> {
    let most = many(64)?;
    same(&rt, answer(rt.alloc(), most.as_bytes()), Ok(64));
    let more = many(65)?;
    same(
        &rt,
        answer(rt.alloc(), more.as_bytes()),
        Err(TableFault::Count),
    );
    Ok(())
}

const TWO_TENANTS: &str =
    "[bob]\nsha256 = \"2cf24dba5fb0a30e26e83b2ac5b9e29e1b161e5c1fa7425e73043362938b9824\"\nquota = 1000\n[alice]\nsha256 = \"BA7816bf8f01cfea414140de5dae2223b00361a396177a9cb410ff61f20015ad\"\nquota = 4\npieces = 3\nread_sha256 = \"2cf24dba5fb0a30e26e83b2ac5b9e29e1b161e5c1fa7425e73043362938b9824\"\n";

// The place of a tenant in the table.
fn place(table: &Table, name: &[u8]) -> Option<u8> {
    table.find(name).map(|tenant| tenant.place())
}

// The tenant and the right of a login, the tenant by its place.
fn login(table: &Table, name: &[u8], token: &[u8]) -> Option<(u8, Right)> {
    let speaker = table.login(name, token)?;
    Some((speaker.tenant.place(), speaker.right))
}

// A tenant's name, and its place in a table.
type Seat = (&'static [u8], Option<u8>);

// Checks the places of tenants in a table.
fn compare_places(rt: &impl Abort, table: &Table, rows: &[Seat]) {
    for (row, (name, want)) in rows.iter().enumerate() {
        same_at(rt, place(table, name), *want, ("row", row));
    }
}

// A name and a token, and the place and the right of their login.
type Login = (&'static [u8], &'static [u8], Option<(u8, Right)>);

// Checks the logins of a table.
fn compare_logins(rt: &impl Abort, table: &Table, rows: &[Login]) {
    for (row, (name, token, want)) in rows.iter().enumerate() {
        same_at(rt, login(table, name, token), *want, ("row", row));
    }
}

static PLACES_OF_TWO: [Seat; 3] = [(b"alice", Some(0)), (b"bob", Some(1)), (b"carol", None)];

static LOGINS_OF_TWO: [Login; 7] = [
    (b"alice", b"abc", Some((0, Right::Change))),
    (b"alice", b"hello", Some((0, Right::Look))),
    (b"alice", b"abd", None),
    (b"bob", b"hello", Some((1, Right::Change))),
    (b"bob", b"abc", None),
    (b"nobody", b"abc", None),
    (b"", b"", None),
];

#[test]
fn logins(rt: HostRuntime) -> Result<(), Fail> {
    let table = parse(rt.alloc(), TWO_TENANTS.as_bytes())?;
    same(&rt, table.len(), 2);
    compare_places(&rt, &table, &PLACES_OF_TWO);
    compare_logins(&rt, &table, &LOGINS_OF_TWO);
    Ok(())
}

// The table of these tenants. The token of each is `abc`, and the n-th has a quota of n.
fn table_of(alloc: Global, names: &[&str]) -> Result<Table, Fail> {
    let mut text: ArrayString<512> = ArrayString::new();
    let mut quota = 0u32;
    for name in names {
        write!(text, "[{name}]\nsha256 = \"{ABC}\"\nquota = {quota}\n")?;
        quota = quota.saturating_add(1);
    }
    Ok(parse(alloc, text.as_bytes())?)
}

// A table without tenants. If memory is refused, a second try makes it.
fn empty(alloc: Global) -> Result<Table, AllocError> {
    match Table::empty(alloc) {
        Err(AllocError) => Table::empty(alloc),
        made => made,
    }
}

// The rows after another table is read.
fn seated(alloc: Global, rows: &Table, table: &Table) -> Result<Table, AllocError> {
    let mut seats = empty(alloc)?;
    seats.seat(rows, table);
    Ok(seats)
}

// The places after the tenants alice, bob and carol are replaced by bob and dave.
static SECOND_PLACES: [Seat; 4] = [
    (b"alice", None),
    (b"bob", Some(1)),
    (b"carol", None),
    (b"dave", Some(3)),
];

static SECOND_LOGINS: [Login; 3] = [
    (b"alice", b"abc", None),
    (b"", b"abc", None),
    (b"dave", b"abc", Some((3, Right::Change))),
];

// The places after these are replaced by alice, dave, erin and fred.
static THIRD_PLACES: [Seat; 5] = [
    (b"alice", Some(0)),
    (b"bob", None),
    (b"erin", Some(2)),
    (b"dave", Some(3)),
    (b"fred", Some(4)),
];

#[test]
fn an_empty_table(rt: HostRuntime) -> Result<(), Fail> {
    let table = empty(rt.alloc())?;
    same(&rt, table.len(), 0);
    same(&rt, place(&table, b""), None);
    Ok(())
}

#[test]
fn places_after_another_table(rt: HostRuntime) -> Result<(), Fail> {
    let a = rt.alloc();
    let first = table_of(a, &["alice", "bob", "carol"])?;
    same(&rt, first.len(), 3);
    let second = seated(a, &first, &table_of(a, &["bob", "dave"])?)?;
    same(&rt, second.len(), 4);
    compare_places(&rt, &second, &SECOND_PLACES);
    compare_logins(&rt, &second, &SECOND_LOGINS);
    let bob = second.find(b"bob").ok_or("bob")?;
    same(&rt, second.quota(bob).entries, 0);
    let next = table_of(a, &["alice", "dave", "erin", "fred"])?;
    let mut third = first;
    third.seat(&second, &next);
    same(&rt, third.len(), 5);
    compare_places(&rt, &third, &THIRD_PLACES);
    Ok(())
}

#[test]
fn speakers_after_another_table(rt: HostRuntime) -> Result<(), Fail> {
    let a = rt.alloc();
    let first = parse(a, TWO_TENANTS.as_bytes())?;
    let alice = first.login(b"alice", b"abc").ok_or("alice")?;
    let reader = first.login(b"alice", b"hello").ok_or("alice reads")?;
    let bob = first.login(b"bob", b"hello").ok_or("bob")?;
    holds(
        &rt,
        first.knows(alice) && first.knows(reader) && first.knows(bob),
    );
    let second = seated(a, &first, &table_of(a, &["alice"])?)?;
    holds(&rt, second.knows(alice));
    holds_at(&rt, !second.knows(reader), "no token to look");
    holds_at(&rt, !second.knows(bob), "no tenant");
    Ok(())
}

// alice has the token `hello` and the read-only token `look`.
const FIRST_TOKENS: &str =
    "[alice]\nsha256 = \"2cf24dba5fb0a30e26e83b2ac5b9e29e1b161e5c1fa7425e73043362938b9824\"\nread_sha256 = \"3c01eba119e00d79c82b6f65d70bc5f1044d568618bf41377e6d1432023fc2b8\"\nquota = 4\n";

#[test]
fn speakers_after_another_token(rt: HostRuntime) -> Result<(), Fail> {
    let a = rt.alloc();
    let first = parse(a, FIRST_TOKENS.as_bytes())?;
    let alice = first.login(b"alice", b"hello").ok_or("alice")?;
    let reader = first.login(b"alice", b"look").ok_or("alice reads")?;
    let second = seated(a, &first, &parse(a, OLD_TOKENS.as_bytes())?)?;
    holds(&rt, second.knows(alice) && second.knows(reader));
    let later = second.login(b"alice", b"abc").ok_or("alice's new token")?;
    let third = seated(a, &second, &table_of(a, &["alice"])?)?;
    holds(&rt, third.knows(later));
    holds_at(&rt, !third.knows(alice), "the old token is gone");
    holds_at(&rt, !third.knows(reader), "the old read-only token is gone");
    let fourth = seated(a, &third, &parse(a, TWO_TENANTS.as_bytes())?)?;
    holds(&rt, fourth.knows(later));
    holds_at(&rt, !fourth.knows(alice), "the token may only read now");
    Ok(())
}

// A table of 64 tenants, whose names begin with this letter.
fn full_table(alloc: Global, letter: char) -> Result<Table, Fail> {
    let mut text: ArrayString<8192> = ArrayString::new();
    for i in 10..74u32 {
        write!(text, "[{letter}{i}]\nsha256 = \"{ABC}\"\nquota = {i}\n")?;
    }
    Ok(parse(alloc, text.as_bytes())?)
}

// Places after all 64 tenants are replaced once, and once more.
static REPLACED_ONCE: [Seat; 3] = [(b"b10", Some(64)), (b"b73", Some(127)), (b"a10", None)];

static REPLACED_TWICE: [Seat; 3] = [(b"c10", Some(0)), (b"c73", Some(63)), (b"b10", None)];

#[test]
fn all_tenants_are_replaced(rt: HostRuntime) -> Result<(), Fail> {
    let a = rt.alloc();
    let first = full_table(a, 'a')?;
    let second = seated(a, &first, &full_table(a, 'b')?)?;
    same(&rt, second.len(), 128);
    compare_places(&rt, &second, &REPLACED_ONCE);
    let third = seated(a, &second, &full_table(a, 'c')?)?;
    same(&rt, third.len(), 128);
    compare_places(&rt, &third, &REPLACED_TWICE);
    Ok(())
}

#[test]
fn quotas(rt: HostRuntime) -> Result<(), Fail> {
    let table = parse(rt.alloc(), TWO_TENANTS.as_bytes())?;
    let alice = table.find(b"alice").ok_or("alice")?;
    let bob = table.find(b"bob").ok_or("bob")?;
    let small = Quota {
        entries: 4,
        pieces: 3,
    };
    let large = Quota {
        entries: 1000,
        pieces: 126_000,
    };
    same(&rt, table.quota(alice), small);
    same(&rt, table.quota(bob), large);
    Ok(())
}

#[test]
fn two_equal_digests_may_change(rt: HostRuntime) -> Result<(), Fail> {
    let mut text: ArrayString<256> = ArrayString::new();
    write!(
        text,
        "[alice]\nsha256 = \"{ABC}\"\nread_sha256 = \"{ABC}\"\nquota = 4\n"
    )?;
    let table = parse(rt.alloc(), text.as_bytes())?;
    same(
        &rt,
        login(&table, b"alice", b"abc"),
        Some((0, Right::Change)),
    );
    Ok(())
}

const OLD_TOKENS: &str =
    "[alice]\nsha256 = \"ba7816bf8f01cfea414140de5dae2223b00361a396177a9cb410ff61f20015ad\"\nquota = 4\nold_read_sha256 = \"3c01eba119e00d79c82b6f65d70bc5f1044d568618bf41377e6d1432023fc2b8\"\nold_sha256 = \"2cf24dba5fb0a30e26e83b2ac5b9e29e1b161e5c1fa7425e73043362938b9824\"\n";

static OLD_LOGINS: [Login; 4] = [
    (b"alice", b"abc", Some((0, Right::Change))),
    (b"alice", b"hello", Some((0, Right::Change))),
    (b"alice", b"look", Some((0, Right::Look))),
    (b"alice", b"", None),
];

#[test]
fn old_tokens_log_in(rt: HostRuntime) -> Result<(), Fail> {
    let a = rt.alloc();
    let table = parse(a, OLD_TOKENS.as_bytes())?;
    compare_logins(&rt, &table, &OLD_LOGINS);
    let later = seated(a, &table_of(a, &["bob", "alice"])?, &table)?;
    same(
        &rt,
        login(&later, b"alice", b"hello"),
        Some((0, Right::Change)),
    );
    same(
        &rt,
        login(&later, b"alice", b"look"),
        Some((0, Right::Look)),
    );
    Ok(())
}

static NAMES: [(TableFault, &str); 8] = [
    (TableFault::Memory, "Memory"),
    (TableFault::Toml, "Toml"),
    (TableFault::Shape, "Shape"),
    (TableFault::Count, "Count"),
    (TableFault::Name, "Name"),
    (TableFault::Digest, "Digest"),
    (TableFault::Quota, "Quota"),
    (TableFault::Pieces, "Pieces"),
];

// The text that a fault is printed as.
fn printed(fault: TableFault) -> Result<ArrayString<16>, Fail> {
    let mut text = ArrayString::new();
    write!(text, "{fault}")?;
    Ok(text)
}

#[test]
fn faults_have_names(rt: HostRuntime) -> Result<(), Fail> {
    for (fault, name) in &NAMES {
        same(&rt, printed(*fault)?.as_str(), *name);
    }
    Ok(())
}

static JOURNALS: [Row; 6] = [
    ("[alice]\nsha256 = D\nquota = 4\njournal = 1", Ok(1)),
    (
        "[alice]\nsha256 = D\nquota = 4\njournal = 9223372036854775807",
        Ok(1),
    ),
    (
        "[alice]\nsha256 = D\nquota = 4\njournal = 0",
        Err(TableFault::Quota),
    ),
    (
        "[alice]\nsha256 = D\nquota = 4\npieces = -1\njournal = -1",
        Err(TableFault::Quota),
    ),
    (
        "[alice]\nsha256 = D\nquota = 4\njournal = '1'",
        Err(TableFault::Shape),
    ),
    (
        "[alice]\nsha256 = D\nquota = 4\njournal = 1.5",
        Err(TableFault::Shape),
    ),
];

// The limit of a tenant's records in a journal is that of its row, and there is none without one.
#[test]
fn limits_in_a_journal(rt: HostRuntime) -> Result<(), Fail> {
    compare(&rt, rt.alloc(), &JOURNALS)?;
    let text = spelled(
        "[alice]\nsha256 = D\nquota = 4\njournal = 65536\n[bob]\nsha256 = D\nquota = 4\n",
    )?;
    let table = parse(rt.alloc(), text.as_bytes())?;
    for (name, want) in [(b"alice".as_slice(), Some(65536)), (b"bob", None)] {
        let limit = table.find(name).and_then(|it| table.journal_limit(it));
        same_at(&rt, limit, want, name);
    }
    Ok(())
}
