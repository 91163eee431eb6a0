//! Scripts and their replies, each with a new service of the same two tenants.

use crate::checks::{holds_at, same_at};
use judy_programs::Ran;
use judy_protocol::{Batch, End};
use judy_server::Server;
use judy_stream::{Page, Refusal, Sink, Source, Tape};
use judy_tenants::Sha256Hash;
use std::alloc::{AllocError, Global};
use std::process::Abort;
use std::test::Fail;

/// The service of the program.
pub type Tenants = Server<Sha256Hash>;

/// Runs an input with the service of the program. Names are looked up with this secret.
pub fn run<R: Source, W: Sink>(alloc: Global, r: &mut R, w: &mut W, words: bool) -> Ran {
    run_by(alloc, Batch::EachReply, r, w, words)
}

/// The same, with the answers that are written at once.
pub fn run_by<R: Source, W: Sink>(
    alloc: Global,
    batch: Batch,
    r: &mut R,
    w: &mut W,
    words: bool,
) -> Ran {
    judy_server::run::<Sha256Hash, R, W>(alloc, b"secret", r, w, words, batch)
}

/// alice has 4 entries, the token `abc`, and the read-only token `hello`. bob has 1,000 entries and
/// the token `hello`.
pub const TABLE: &str =
    "[alice]\nsha256 = \"ba7816bf8f01cfea414140de5dae2223b00361a396177a9cb410ff61f20015ad\"\nquota = 4\nread_sha256 = \"2cf24dba5fb0a30e26e83b2ac5b9e29e1b161e5c1fa7425e73043362938b9824\"\n[bob]\nsha256 = \"2cf24dba5fb0a30e26e83b2ac5b9e29e1b161e5c1fa7425e73043362938b9824\"\nquota = 1000\n";

/// The same tenants with other quotas: nothing for alice, and 4 entries of 3 pieces for bob.
const SMALL: &str =
    "[alice]\nsha256 = \"ba7816bf8f01cfea414140de5dae2223b00361a396177a9cb410ff61f20015ad\"\nquota = 0\nread_sha256 = \"2cf24dba5fb0a30e26e83b2ac5b9e29e1b161e5c1fa7425e73043362938b9824\"\n[bob]\nsha256 = \"2cf24dba5fb0a30e26e83b2ac5b9e29e1b161e5c1fa7425e73043362938b9824\"\nquota = 4\npieces = 3\n";

/// A table, the line that ends it, and a script.
pub fn input(alloc: Global, table: &str, script: &str) -> Result<String, AllocError> {
    format!(in alloc; "{table}---\n{script}")
}

/// Serves a script of this name, and compares what was written.
pub fn check(
    rt: &impl Abort,
    alloc: Global,
    name: &str,
    table: &str,
    words: bool,
    script: &str,
    want: &str,
) -> Result<(), Fail> {
    let whole = input(alloc, table, script)?;
    let mut tape = Tape::new(whole.as_str().as_bytes(), &[], 4096, None);
    let mut page: Page<4096> = Page::new(4096, Refusal::Fails, None, None);
    let ran = run(alloc, &mut tape, &mut page, words);
    holds_at(
        rt,
        matches!(ran, Ran::Served(End::End | End::Quit)),
        (name, "is not served", ran),
    );
    same_at(rt, page.bytes(), want.as_bytes(), name);
    Ok(())
}

/// The same as bob, with the words at the end. The reply to his login comes first.
pub fn check_bob(
    rt: &impl Abort,
    alloc: Global,
    name: &str,
    script: &str,
    want: &str,
) -> Result<(), Fail> {
    let script = format!(in alloc; "AUTH bob hello\n{script}")?;
    let want = format!(in alloc; "OK\n{want}")?;
    check(rt, alloc, name, TABLE, true, script.as_str(), want.as_str())
}

/// Adds a row to a script and to the replies: a line and its reply, with ` -> ` between them. A line
/// after `QUIT` gets no reply, and the words are written without a line.
pub fn add(script: &mut String, want: &mut String, row: &str) -> Result<(), AllocError> {
    if let Some(reply) = row.strip_prefix("-> ") {
        want.push_str(reply)?;
        return want.push('\n');
    }
    let (line, reply) = match row.split_once(" -> ") {
        Some((line, reply)) => (line, Some(reply)),
        None => (row, None),
    };
    script.push_str(line)?;
    script.push('\n')?;
    if let Some(reply) = reply {
        want.push_str(reply)?;
        want.push('\n')?;
    }
    Ok(())
}

/// Serves the script of these rows, and compares the replies.
fn check_rows(
    rt: &impl Abort,
    alloc: Global,
    table: &str,
    words: bool,
    section: &str,
) -> Result<(), Fail> {
    let (name, rows) = section.split_once('\n').ok_or("a name and rows")?;
    let mut script = String::new(alloc);
    let mut want = String::new(alloc);
    for row in rows.lines() {
        add(&mut script, &mut want, row)?;
    }
    check(
        rt,
        alloc,
        name,
        table,
        words,
        script.as_str(),
        want.as_str(),
    )
}

/// Checks each section of a text: its first line is a name, and the others are rows. An empty line is
/// between two sections.
fn check_sections(
    rt: &impl Abort,
    alloc: Global,
    table: &str,
    words: bool,
    text: &str,
) -> Result<(), Fail> {
    for section in text.split("\n\n") {
        check_rows(rt, alloc, table, words, section)?;
    }
    Ok(())
}

const OF_TENANTS: &str = "a first run
AUTH alice abc -> OK
J1S a 5 -> 1
J1S a 5 -> 0
J1T a 5 -> 1
J1U a 5 -> 1
J1T a 5 -> 0
USED -> Q 0 4 0 504

empty arrays
AUTH alice abc -> OK
J1C a 0 -1 -> N 0
J1FE a 0 -> 1 0
JLG l 0 -> NULL
J1FA a -> N 0

ends of the range
AUTH alice abc -> OK
J1S a 0 -> 1
J1S a 18446744073709551615 -> 1
J1N a 0 -> 1 18446744073709551615
J1N a -1 -> 0
J1P a 0 -> 0
J1LE a -1 -> 1 18446744073709551614
J1PE a 0 -> 0
J1NE a -1 -> 0
J1C a 0 -1 -> N 2

the edge of the quota
AUTH alice abc -> OK
J1S a 1 -> 1
J1S a 2 -> 1
J1S a 3 -> 1
J1S a 4 -> 1
J1S a 9 -> FULL
J1S a 1 -> 0
JLI l 1 7 -> FULL
J1U a 1 -> 1
JLI l 1 7 -> V 0
USED -> Q 4 4 4 504

ranks and values
AUTH alice abc -> OK
J1S a 3 -> 1
J1S a 5 -> 1
J1S a 9 -> 1
J1C a 9 3 -> N 0
J1C a 3 9 -> N 3
J1BC a 0 -> 0
J1BC a 1 -> 1 3
J1BC a 3 -> 1 9
J1BC a 4 -> 0

ranks and values, again
AUTH alice abc -> OK
JLI l 5 8 -> V 0
JLI l 5 -> V 8
JLI l 5 9 -> V 8
JLG l 5 -> V 9
JLBC l 1 -> V 9 5
JLN l 5 -> NULL
JLFE l 5 -> 1 6
JLD l 5 -> 1
JLD l 5 -> 0

counters
AUTH alice abc -> OK
JLA l 5 3 -> V 3
JLA l 5 4 -> V 7
JLA l 5 -1 -> V 6
JLI l 5 -1 -> V 6
JLA l 5 2 -> V 1
JSLA s x61 3 -> V 3
JSLA s x61 4 -> V 7
JHSA h x61 3 -> V 3
JHSA h x61 4 -> V 7
USED -> Q 3 4 3 504

counters, again
AUTH alice abc -> OK
J1S a 1 -> 1
J1S a 2 -> 1
J1S a 3 -> 1
JLA l 1 7 -> V 7
JLA l 2 7 -> FULL
JSLA s x61 7 -> FULL
JHSA h x61 7 -> FULL
JLA l 1 7 -> V 14
USED -> Q 4 4 4 504

counters, by both
AUTH alice abc -> OK
JLA l 1 7 -> V 7
AUTH alice hello -> OK
JLA l 1 7 -> ERR READONLY
AUTH bob hello -> OK
JLA l 1 5 -> V 5

strings and byte keys
AUTH alice abc -> OK
JSLI s x7f 1 -> V 0
JSLI s x80 2 -> V 0
JSLI s x7f01 3 -> V 0
JSLF s x -> V 1 x7f
JSLN s x7f -> V 3 x7f01
JSLL s xff -> V 2 x80
JSLP s x7f -> NULL

strings and byte keys, again
AUTH alice abc -> OK
JHSI h x 1 -> V 0
JHSI h x00 2 -> V 0
JHSG h x -> V 1
JHSG h x0000 -> NULL
JHSD h x -> 1
JHSFA h -> N 1

logins
PING -> OK
HELLO -> JUDYD 1 line 4096 reply 4096 name 32 token 128 key 1000
J1T a 1 -> ERR AUTH
AUTH alice abc -> OK
PING -> OK
AUTH alice abd -> ERR AUTH
J1T a 1 -> ERR AUTH
AUTH nobody abc -> ERR AUTH
AUTH alice -> ERR SYNTAX
QUIT -> BYE
USED

a token for looking
AUTH alice hello -> OK
J1S a 1 -> ERR READONLY
J1T a 1 -> 0
J1FA a -> ERR READONLY
JLI l -> ERR SYNTAX
AUTH alice abc -> OK
J1S a 1 -> 1
AUTH alice hello -> OK
J1T a 1 -> 1
J1U a 1 -> ERR READONLY
USED -> Q 1 4 1 504
AUTH alice abd -> ERR AUTH
J1T a 1 -> ERR AUTH

spaces and carriage returns
AUTH alice abc -> OK
  J1S   a 5 \r -> 1
J1T\ta 5 -> ERR SYNTAX
J1T a 5\r\r -> ERR SYNTAX
J1T a 005 -> 1
j1t a 7 -> ERR SYNTAX
 -> ERR SYNTAX
J1S a 18446744073709551616 -> ERR SYNTAX
JSLI s x00 -> ERR SYNTAX
JSLI s x616 -> ERR SYNTAX
J1T a -2 -> ERR SYNTAX
";

#[test]
fn scripts(rt: HostRuntime) -> Result<(), Fail> {
    check_sections(&rt, rt.alloc(), TABLE, false, OF_TENANTS)
}

const OF_SMALL_QUOTAS: &str = "a token for looking, again
AUTH alice hello -> OK
J1S a 1 -> ERR READONLY
AUTH alice abc -> OK
J1S a 1 -> FULL

small quotas
AUTH alice abc -> OK
J1S a 1 -> FULL
J1U a 1 -> 0
J1FE a 0 -> 1 0
USED -> Q 0 0 0 0

small quotas, again
AUTH bob hello -> OK
JSLI s x6162636465666768 1 -> V 0
J1S a 1 -> 1
J1S a 2 -> FULL
JSLI s x6162636465666768 9 -> V 1
USED -> Q 2 4 3 3
JSLD s x6162636465666768 -> 1
JSLI s x616263646566676869 5 -> V 0
USED -> Q 2 4 3 3
JSLFA s -> N 1
USED -> Q 1 4 1 3
";

#[test]
fn scripts_with_small_quotas(rt: HostRuntime) -> Result<(), Fail> {
    check_sections(&rt, rt.alloc(), SMALL, false, OF_SMALL_QUOTAS)
}

// Scripts with the words at the end.
const WITH_WORDS: &str = "strings and byte keys, once more
AUTH bob hello -> OK
JSLI s x 1 -> V 0
JSLI s x61626364656667 2 -> V 0
JSLI s x6162636465666768 3 -> V 0
JSLI s x616263646566676869 4 -> V 0
JSLF s x -> V 1 x
JSLN s x -> V 2 x61626364656667
JSLN s x61626364656667 -> V 3 x6162636465666768
JSLN s x6162636465666768 -> V 4 x616263646566676869
JSLN s x616263646566676869 -> NULL
JSLD s x6162636465666768 -> 1
JSLN s x61626364656667 -> V 4 x616263646566676869
JSLFA s -> N 3
-> WORDS 0

one name and two kinds
AUTH bob hello -> OK
JLI a 1 -> V 0
JLI a 2 9 -> V 0
J1C a 0 -1 -> N 0
JLL a -1 -> V 9 2
JLP a 1 -> NULL
JLFA a -> N 2
JLC a 0 -1 -> N 0
-> WORDS 0

freed and cut
AUTH bob hello -> OK
J1S a 1 -> 1
J1FA a -> N 1
QUIT -> BYE
J1S a 2
-> WORDS 0

freed and cut, once more
AUTH bob hello -> OK
J1S a 1 -> 1
-> WORDS 4
";

#[test]
fn scripts_with_words(rt: HostRuntime) -> Result<(), Fail> {
    check_sections(&rt, rt.alloc(), TABLE, true, WITH_WORDS)
}

// A line without its end is not answered.
#[test]
fn a_cut_line(rt: HostRuntime) -> Result<(), Fail> {
    check_bob(&rt, rt.alloc(), "a cut line", "J1S a 1", "WORDS 0\n")
}
