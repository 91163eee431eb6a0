//! Runs in which a request for memory may be refused. The line that needs the memory gets the reply
//! `ERR MEMORY`, and every other line gets the reply that it would get without that line. If there
//! is no memory for the service, nothing is written.
use crate::checks::{holds_at, same};
use crate::programs::rows::{TABLE, Tenants, run};
use arrayvec::ArrayString;
use judy_programs::{Opens, Ran, Unopened};
use judy_protocol::{End, serve};
use judy_stream::{Page, Refusal, Tape};
use judy_table::TableFault;
use std::alloc::Global;
use std::fmt::Write;
use std::process::Abort;
use std::test::Fail;

// A line that inserts something. It is sent twice, and a question follows each time.
#[derive(Clone, Copy)]
struct Row {
    line: &'static str,
    question: &'static str,
    // The reply to the line if it inserts something new.
    done: &'static str,
    // The reply to the line the second time.
    again: &'static str,
    // The replies to the question: after the line, and if the line was refused.
    there: &'static str,
    absent: &'static str,
}

// One row for each kind of array.
static ROWS: [Row; 4] = [
    Row {
        line: "J1S a 5",
        question: "J1T a 5",
        done: "1",
        again: "0",
        there: "1",
        absent: "0",
    },
    Row {
        line: "JLI l 7 70",
        question: "JLG l 7",
        done: "V 0",
        again: "V 70",
        there: "V 70",
        absent: "NULL",
    },
    Row {
        line: "JSLI s x6162636465666768696a 3",
        question: "JSLG s x6162636465666768696a",
        done: "V 0",
        again: "V 3",
        there: "V 3",
        absent: "NULL",
    },
    Row {
        line: "JHSI h x61 4",
        question: "JHSG h x61",
        done: "V 0",
        again: "V 4",
        there: "V 4",
        absent: "NULL",
    },
];

// How many other sets there are: more names than are guaranteed a place.
const NAMES: usize = 300;

// The lines, sent as bob: those of the rows, those of a set for each name, and then `USED`.
fn script() -> Result<ArrayString<16384>, Fail> {
    let mut text = ArrayString::new();
    text.write_str("AUTH bob hello\n")?;
    for row in &ROWS {
        let (line, question) = (row.line, row.question);
        write!(text, "{line}\n{question}\n{line}\n{question}\n")?;
    }
    for n in 0..NAMES {
        write!(text, "J1S n{n} 1\nJ1T n{n} 1\nJ1S n{n} 1\nJ1T n{n} 1\n")?;
    }
    text.write_str("USED\n")?;
    Ok(text)
}

// The replies, if the first line of the row or name of this number is refused. If the number is too
// large, no line is refused.
fn replies(refused: usize) -> Result<ArrayString<4096>, Fail> {
    let mut text = ArrayString::new();
    text.write_str("OK\n")?;
    for (i, row) in ROWS.iter().enumerate() {
        let (done, again, there, absent) = (row.done, row.again, row.there, row.absent);
        if i == refused {
            write!(text, "ERR MEMORY\n{absent}\n{done}\n{there}\n")?;
        } else {
            write!(text, "{done}\n{there}\n{again}\n{there}\n")?;
        }
    }
    for n in 0..NAMES {
        let refused_here = n + ROWS.len() == refused;
        text.write_str(if refused_here {
            "ERR MEMORY\n0\n1\n1\n"
        } else {
            "1\n1\n0\n1\n"
        })?;
    }
    text.write_str("Q 304 1000 305 126000\n")?;
    Ok(text)
}

// Whether these are the replies, with at most one line refused.
fn is_answered(written: &[u8]) -> Result<bool, Fail> {
    for refused in 0..=NAMES + ROWS.len() {
        let wanted = replies(refused)?;
        if wanted.as_bytes() == written {
            return Ok(true);
        }
    }
    Ok(false)
}

// How a run of this input ends, and what it writes.
fn run_once(alloc: Global, input: &[u8]) -> (Ran, Page<4096>) {
    let mut tape = Tape::new(input, &[], 4096, None);
    let mut page: Page<4096> = Page::new(4096, Refusal::Fails, None, None);
    let ran = run(alloc, &mut tape, &mut page, false);
    (ran, page)
}

#[test]
fn a_run(rt: HostRuntime) -> Result<(), Fail> {
    let mut input: ArrayString<20000> = ArrayString::new();
    input.write_str(TABLE)?;
    input.write_str("---\n")?;
    input.write_str(script()?.as_str())?;
    let (ran, page) = run_once(rt.alloc(), input.as_bytes());
    if ran == Ran::Memory || ran == Ran::Table(TableFault::Memory) {
        holds_at(&rt, page.bytes().is_empty(), "written without a service");
        let (ran, page) = run_once(rt.alloc(), input.as_bytes());
        same(&rt, ran, Ran::Served(End::End));
        same(&rt, page.bytes(), replies(NAMES + ROWS.len())?.as_bytes());
        return Ok(());
    }
    same(&rt, ran, Ran::Served(End::End));
    holds_at(&rt, is_answered(page.bytes())?, "other replies");
    Ok(())
}

// The two tenants. If memory is refused, a second try succeeds.
fn open(rt: &impl Abort, alloc: Global) -> Result<Tenants, Fail> {
    match Tenants::open(alloc, b"secret", TABLE.as_bytes()) {
        Ok(tenants) => return Ok(tenants),
        Err(why) => holds_at(
            rt,
            why == Unopened::Memory || why == Unopened::Table(TableFault::Memory),
            why,
        ),
    }
    match Tenants::open(alloc, b"secret", TABLE.as_bytes()) {
        Ok(tenants) => Ok(tenants),
        Err(_) => Err(Fail::from("no service twice")),
    }
}

#[test]
fn a_connection(rt: HostRuntime) -> Result<(), Fail> {
    let script = script()?;
    let mut tenants = open(&rt, rt.alloc())?;
    let mut tape = Tape::new(script.as_bytes(), &[], 4096, None);
    let mut page: Page<4096> = Page::new(4096, Refusal::Fails, None, None);
    let end = serve(rt.alloc(), &mut tenants, &mut tape, &mut page);
    same(&rt, end, End::End);
    holds_at(&rt, is_answered(page.bytes())?, "other replies");
    Ok(())
}
