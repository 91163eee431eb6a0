//! The table before the script: its end, its faults, and failing reads and writes.
use crate::checks::{holds_at, same, same_at};
use crate::programs::rows::{TABLE, input, run, run_by};
use judy_programs::{Hosted, Ran, finish, finish_hosted};
use judy_protocol::{Batch, End};
use judy_stream::{Page, Refusal, Tape};
use judy_table::TableFault;
use std::alloc::{AllocError, Global};
use std::process::Abort;
use std::test::Fail;

// How a run of this input ends.
fn run_bytes(alloc: Global, bytes: &[u8]) -> Ran {
    let mut tape = Tape::new(bytes, &[], 4096, None);
    let mut page: Page<64> = Page::new(64, Refusal::Fails, None, None);
    run(alloc, &mut tape, &mut page, false)
}

static FAULTY: [(&str, TableFault); 9] = [
    ("", TableFault::Count),
    ("alice = 1\n", TableFault::Shape),
    ("[alice\n", TableFault::Toml),
    (
        "[\"a b\"]\nsha256 = \"ba7816bf8f01cfea414140de5dae2223b00361a396177a9cb410ff61f20015ad\"\nquota = 4\n",
        TableFault::Name,
    ),
    (
        "[alice]\nsha256 = \"ba78\"\nquota = 4\n",
        TableFault::Digest,
    ),
    (
        "[alice]\nsha256 = \"ba7816bf8f01cfea414140de5dae2223b00361a396177a9cb410ff61f20015ad\"\nquota = 16777217\n",
        TableFault::Quota,
    ),
    (
        "[alice]\nsha256 = \"ba7816bf8f01cfea414140de5dae2223b00361a396177a9cb410ff61f20015ad\"\nquota = -1\n",
        TableFault::Quota,
    ),
    (
        "[alice]\nsha256 = \"ba7816bf8f01cfea414140de5dae2223b00361a396177a9cb410ff61f20015ad\"\nquota = \"4\"\n",
        TableFault::Shape,
    ),
    (
        "[alice]\nsha256 = \"ba7816bf8f01cfea414140de5dae2223b00361a396177a9cb410ff61f20015ad\"\nquota = 4\npieces = 2113929217\n",
        TableFault::Pieces,
    ),
];

#[test]
fn faulty_tables(rt: HostRuntime) -> Result<(), Fail> {
    for (table, fault) in &FAULTY {
        let whole = input(rt.alloc(), table, "USED\n")?;
        let ran = run_bytes(rt.alloc(), whole.as_str().as_bytes());
        same_at(&rt, ran, Ran::Table(*fault), table);
    }
    Ok(())
}

#[test]
fn tables_without_their_end(rt: HostRuntime) {
    for table in [TABLE, "", "---"] {
        same_at(
            &rt,
            run_bytes(rt.alloc(), table.as_bytes()),
            Ran::Cut,
            table,
        );
    }
}

static FINISHED: [(Ran, u8, Option<&str>); 4] = [
    (
        Ran::Table(TableFault::Count),
        3,
        Some("judyd: table: Count"),
    ),
    (Ran::Cut, 3, Some("judyd: table: Cut")),
    (Ran::Served(End::Quit), 0, None),
    (Ran::Write, 4, Some("judyd: write fault")),
];

static FINISHED_HOSTED: [(Hosted, u8, Option<&str>); 2] = [
    (Hosted::Done, 0, None),
    (Hosted::Socket, 4, Some("judyd: socket fault")),
];

#[test]
fn statuses_and_texts(rt: HostRuntime) {
    for (ran, status, text) in &FINISHED {
        same_at(&rt, finish(*ran), (*status, *text), ran);
    }
    for (hosted, status, text) in &FINISHED_HOSTED {
        same_at(&rt, finish_hosted(*hosted), (*status, *text), hosted);
    }
}

// The table with a comment after it, this many bytes in all. Then `mark` and a line `QUIT`.
fn long_table(alloc: Global, len: usize, mark: &str) -> Result<String, AllocError> {
    let mut text = String::from_str(alloc, TABLE)?;
    let dots = len.saturating_sub(TABLE.len()).saturating_sub(2);
    text.push('#')?;
    for _ in 0..dots {
        text.push('.')?;
    }
    text.push('\n')?;
    text.push_str(mark)?;
    text.push_str("QUIT\n")?;
    Ok(text)
}

// How many bytes the table has, the end after it, and how the run ends. A line of four dashes is not
// TOML.
static LONGEST: [(usize, &str, Ran); 5] = [
    (65536, "---\n", Ran::Served(End::Quit)),
    (65536, "---\r\n", Ran::Served(End::Quit)),
    (65537, "---\n", Ran::Long),
    (65536, "--- \n---\n", Ran::Long),
    (65000, "----\n---\n", Ran::Table(TableFault::Toml)),
];

#[test]
fn the_longest_table(rt: HostRuntime) -> Result<(), Fail> {
    for (len, mark, want) in &LONGEST {
        let text = long_table(rt.alloc(), *len, mark)?;
        let ran = run_bytes(rt.alloc(), text.as_str().as_bytes());
        same_at(&rt, ran, *want, (len, mark));
    }
    Ok(())
}

// Runs an input of the two tenants that comes in these parts, and compares the replies.
fn check_parts(rt: &impl Abort, alloc: Global, tape: &mut Tape<'_>, name: usize) {
    let mut page: Page<64> = Page::new(64, Refusal::Fails, None, None);
    let ran = run(alloc, tape, &mut page, false);
    same_at(rt, ran, Ran::Served(End::End), name);
    same_at(
        rt,
        page.bytes(),
        b"OK\n1\nERR SYNTAX\nERR SYNTAX\nQ 1 4 1 504\n".as_slice(),
        name,
    );
}

// An input that is cut at each place, and one of which each read takes a byte.
#[test]
fn in_any_pieces(rt: HostRuntime) -> Result<(), Fail> {
    let whole = input(
        rt.alloc(),
        TABLE,
        "AUTH alice abc\n  J1S   a 5 \r\nJ1T\ta 5\n---\nUSED\n",
    )?;
    let bytes = whole.as_str().as_bytes();
    for place in 0..bytes.len() {
        let cuts = [place];
        let mut tape = Tape::new(bytes, &cuts, 4096, None);
        check_parts(&rt, rt.alloc(), &mut tape, place);
    }
    let mut tape = Tape::new(bytes, &[], 1, None);
    check_parts(&rt, rt.alloc(), &mut tape, bytes.len());
    Ok(())
}

#[test]
fn failing_reads(rt: HostRuntime) -> Result<(), Fail> {
    let whole = input(rt.alloc(), TABLE, "AUTH alice abc\nUSED\n")?;
    let bytes = whole.as_str().as_bytes();
    let script = TABLE.len() + 4;
    for place in 0..bytes.len() {
        let mut tape = Tape::new(bytes, &[], 4096, Some(place));
        let mut page: Page<64> = Page::new(64, Refusal::Fails, None, None);
        let ran = run(rt.alloc(), &mut tape, &mut page, true);
        if place < script {
            same_at(&rt, ran, Ran::Read, place);
            same(&rt, page.bytes(), b"".as_slice());
        } else {
            same_at(&rt, ran, Ran::Served(End::ReadFault), place);
        }
    }
    Ok(())
}

#[test]
fn failing_writes(rt: HostRuntime) -> Result<(), Fail> {
    let whole = input(
        rt.alloc(),
        TABLE,
        "AUTH alice abc\nJ1S a 1\nJ1S a 2\nQUIT\n",
    )?;
    let bytes = whole.as_str().as_bytes();
    let replies = b"OK\n1\n1\nBYE\nWORDS 4\n".as_slice();
    for limit in 0..19usize {
        for batch in [Batch::EachReply, Batch::EachRead] {
            let mut tape = Tape::new(bytes, &[], 4096, None);
            let mut page: Page<64> = Page::new(limit, Refusal::TakesNothing, None, None);
            let ran = run_by(rt.alloc(), batch, &mut tape, &mut page, true);
            if limit < 11 {
                same_at(&rt, ran, Ran::Served(End::WriteFault), limit);
            } else {
                same_at(&rt, ran, Ran::Write, limit);
            }
            holds_at(&rt, replies.starts_with(page.bytes()), limit);
        }
    }
    Ok(())
}
