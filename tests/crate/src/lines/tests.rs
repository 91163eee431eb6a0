//! Scripts in memory, cut at every place and failing at every place.

use crate::checks::{same, same_at};
use crate::lines::house::{House, Tenant};
use crate::lines::strict::reads_with_lines;
use judy_protocol::{Batch, End, READS_LIMIT, Served, serve, serve_after, serve_up_to};
use judy_stream::{Page, Reads, Refusal, Sink, Source, Tape, Writes};
use std::alloc::Global;
use std::cell::Cell;
use std::io::{self, ErrorKind, Read, Write};
use std::process::Abort;
use std::test::Fail;

// Odd and malformed lines between good ones, logins that fail and succeed, and bytes after the last
// line that is run.
const SCRIPT: &[u8] =
    b"J1T a 1\nPING\nAUTH alice abc\nHELLO\n  J1S   a 5 \r\nJ1T\ta 5\n\nJ1T a 005\r\r\nAUTH alice\nJ1T a 5\nAUTH alice abd\nJ1T a 5\nAUTH nobody abc\nAUTH bob hello\nJ1T a 5\nUSED\nAUTH alice hello\nJ1U a 5\nUSED\nQUIT\nJ1S a 7\nQUIT\n";

const REPLIES: &[u8] =
    b"ERR AUTH\nOK\nOK\nJUDYD 1 line 4096 reply 4096 name 32 token 128 key 1000\n1\nERR SYNTAX\nERR SYNTAX\nERR SYNTAX\nERR SYNTAX\n1\nERR AUTH\nERR AUTH\nERR AUTH\nOK\n0\nQ 0 1000 0 126000\nOK\nERR READONLY\nQ 1 4 1 504\nBYE\n";

// The number of line feeds among the bytes.
fn count_lines(bytes: &[u8]) -> usize {
    bytes.iter().filter(|b| **b == b'\n').count()
}

// The first lines of a text with their line feeds: as many as `lines` says.
fn first_lines(text: &[u8], lines: usize) -> &[u8] {
    let mut left = lines;
    let mut end = 0;
    for i in 0..text.len() {
        if left > 0 {
            end = i + 1;
            if text[i] == b'\n' {
                left -= 1;
            }
        }
    }
    &text[..end.min(text.len())]
}

/// Which answers are written at once: each alone, as `serve` does, or those of a read.
pub const BATCHES: [Batch; 2] = [Batch::EachReply, Batch::EachRead];

/// Serves a connection as `serve` does, but that it writes the answers of one batch at once.
pub fn serve_by<S: Served, R: Source, W: Sink>(
    alloc: Global,
    batch: Batch,
    service: &mut S,
    source: &mut R,
    sink: &mut W,
) -> End {
    match batch {
        Batch::EachReply => serve(alloc, service, source, sink),
        Batch::EachRead => serve_after(alloc, service, b"", source, sink, READS_LIMIT, batch),
    }
}

// Serves a tape in a new house, and checks how that ends, what is written, and how many entries alice
// then has.
fn serves(
    rt: &impl Abort,
    alloc: Global,
    batch: Batch,
    tape: Tape<'_>,
    page: Page<512>,
    want: (End, &[u8]),
) -> u64 {
    let (mut tape, mut page) = (tape, page);
    let mut house = House::new(alloc);
    let end = serve_by(alloc, batch, &mut house, &mut tape, &mut page);
    same(rt, (end, page.bytes()), want);
    house.used(Tenant::Alice)
}

// Serves a script that one pull gives, in a new house, and checks what was written.
fn answers(rt: &impl Abort, alloc: Global, script: &[u8], replies: &[u8]) {
    let mut house = House::new(alloc);
    let mut tape = Tape::new(script, &[], 5000, None);
    let mut page: Page<4096> = Page::new(4096, Refusal::Fails, None, None);
    let end = serve(alloc, &mut house, &mut tape, &mut page);
    same(rt, page.bytes(), replies);
    same(rt, end, End::End);
}

#[test]
fn every_cut_and_step(rt: HostRuntime) {
    for place in 0..SCRIPT.len() {
        for (cuts, step) in [([place], 5000), ([0], place + 1)] {
            for batch in BATCHES {
                let tape = Tape::new(SCRIPT, &cuts, step, None);
                let page = Page::new(512, Refusal::Fails, None, None);
                let used = serves(&rt, rt.alloc(), batch, tape, page, (End::Quit, REPLIES));
                same_at(&rt, used, 1, ("at", place));
            }
        }
    }
}

#[test]
fn every_read_fails(rt: HostRuntime) {
    // The script without its QUIT line and what follows.
    let script = first_lines(SCRIPT, 19);
    for place in 0..script.len() {
        for batch in BATCHES {
            let tape = Tape::new(script, &[], 5000, Some(place));
            let page = Page::new(512, Refusal::Fails, None, None);
            let want = first_lines(REPLIES, count_lines(&script[..place]));
            let _used = serves(&rt, rt.alloc(), batch, tape, page, (End::ReadFault, want));
        }
    }
}

#[test]
fn every_write_fails(rt: HostRuntime) {
    for place in 0..REPLIES.len() {
        for refusal in [Refusal::TakesNothing, Refusal::Fails] {
            // All pushes fail from the place on, or only one fails.
            for (limit, push_fails_at) in [(place, None), (512, Some(place))] {
                for batch in BATCHES {
                    let tape = Tape::new(SCRIPT, &[], 5000, None);
                    let page = Page::new(limit.min(512), refusal, push_fails_at, None);
                    let want = (End::WriteFault, &REPLIES[..place]);
                    let _used = serves(&rt, rt.alloc(), batch, tape, page, want);
                }
            }
        }
    }
}

// One flush fails, and all others succeed. A flush follows each answer, or with `EachRead` the answers
// to the lines of each read, and nothing follows the flush that failed. The reads have one byte each,
// or the whole script.
#[test]
fn every_flush_fails(rt: HostRuntime) {
    for (batch, step) in [
        (Batch::EachReply, 1),
        (Batch::EachReply, 5000),
        (Batch::EachRead, 1),
        (Batch::EachRead, 5000),
    ] {
        let one_text = batch == Batch::EachRead && step == 5000;
        for place in 1..=REPLIES.len() {
            let tape = Tape::new(SCRIPT, &[], step, None);
            let page = Page::new(512, Refusal::Fails, None, Some(place));
            let of_line = !one_text && REPLIES[place - 1] == b'\n';
            let want = if of_line || place == REPLIES.len() {
                (End::WriteFault, &REPLIES[..place])
            } else {
                (End::Quit, REPLIES)
            };
            let _used = serves(&rt, rt.alloc(), batch, tape, page, want);
        }
    }
}

// The row "failing writer": the writer takes 4 bytes and then fails. The line whose answer is cut is
// the last that is run, although the next one came with it.
#[test]
fn a_failing_writer(rt: HostRuntime) {
    let script = b"AUTH alice abc\nJ1S a 1\nJ1S a 2\n";
    let mut house = House::new(rt.alloc());
    let mut tape = Tape::new(script, &[], 5000, None);
    let mut page: Page<512> = Page::new(4, Refusal::Fails, None, None);
    let end = serve(rt.alloc(), &mut house, &mut tape, &mut page);
    same(
        &rt,
        (end, page.bytes()),
        (End::WriteFault, b"OK\n1".as_slice()),
    );
    same(&rt, house.used(Tenant::Alice), 1);
}

const THREE_SETS: &[u8] = b"AUTH alice abc\nJ1S a 1\nJ1S a 2\nJ1S a 3\n";

// Where the read ends does not matter, as long as each reply is written alone. With `EachRead` the
// lines of the read whose answers are not written are run, up to its end, and no line of the next read
// is.
#[test]
fn a_failed_write_runs_no_line_of_the_next_text(rt: HostRuntime) {
    for (cuts, used) in [([15, 23], 1), ([0, 23], 1), ([0, 31], 2), ([0, 39], 3)] {
        for (batch, used) in [(Batch::EachReply, 1), (Batch::EachRead, used)] {
            let tape = Tape::new(THREE_SETS, &cuts, 5000, None);
            let page = Page::new(4, Refusal::Fails, None, None);
            let want = (End::WriteFault, b"OK\n1".as_slice());
            same(&rt, serves(&rt, rt.alloc(), batch, tape, page, want), used);
        }
    }
}

#[test]
fn as_many_reads_as_may(rt: HostRuntime) {
    let mut house = House::new(rt.alloc());
    let mut tape = Tape::new(b"AUTH alice abc\nJ1S a 1\nJ1S a 2\n", &[15, 23], 5000, None);
    let mut page: Page<512> = Page::new(512, Refusal::Fails, None, None);
    same(
        &rt,
        serve_up_to(rt.alloc(), &mut house, &mut tape, &mut page, 2),
        End::Limit,
    );
    same(&rt, page.bytes(), b"OK\n1\n".as_slice());
    same(&rt, house.used(Tenant::Alice), 1);
}

#[test]
fn the_next_connection_finds_what_was_stored(rt: HostRuntime) {
    let mut house = House::new(rt.alloc());
    for (script, replies, end) in [
        (
            b"AUTH alice abc\nJ1S a 1\nQUIT\nJ1S a 2".as_slice(),
            b"OK\n1\nBYE\n".as_slice(),
            End::Quit,
        ),
        (
            b"J1T a 1\nAUTH alice abc\nJ1T a 1\nJ1S",
            b"ERR AUTH\nOK\n1\n",
            End::End,
        ),
        (
            b"AUTH bob hello\nJ1T a 1\nQUIT\n",
            b"OK\n0\nBYE\n",
            End::Quit,
        ),
    ] {
        let mut tape = Tape::new(script, &[], 5000, None);
        let mut page: Page<512> = Page::new(512, Refusal::Fails, None, None);
        same(
            &rt,
            serve(rt.alloc(), &mut house, &mut tape, &mut page),
            end,
        );
        same(&rt, page.bytes(), replies);
    }
}

#[test]
fn bytes_that_no_request_has(rt: HostRuntime) {
    answers(
        &rt,
        rt.alloc(),
        b"AUTH alice abc\nJ1T \xff 1\n\x00\nAUTH alice a\x7f\nJ1T a 1\n",
        b"OK\nERR SYNTAX\nERR SYNTAX\nERR SYNTAX\n0\n",
    );
}

#[test]
fn the_edge_of_the_quota(rt: HostRuntime) {
    answers(
        &rt,
        rt.alloc(),
        b"AUTH alice abc\nJ1S a 1\nJ1S a 2\nJ1S a 3\nJ1S a 4\nJ1S a 9\nJ1S a 1\nJLI l 1 7\nJ1U a 1\nJLI l 1 7\nUSED\n",
        b"OK\n1\n1\n1\n1\nFULL\n0\nFULL\n1\nV 0\nQ 4 4 4 504\n",
    );
}

#[test]
fn a_token_for_looking(rt: HostRuntime) {
    answers(
        &rt,
        rt.alloc(),
        b"AUTH alice hello\nJ1S a 1\nJ1T a 1\nJ1FA a\nJLI l\nAUTH alice abc\nJ1S a 1\nAUTH alice hello\nJ1T a 1\nJ1U a 1\nUSED\nAUTH alice abd\nJ1T a 1\n",
        b"OK\nERR READONLY\n0\nERR READONLY\nERR SYNTAX\nOK\n1\nOK\n1\nERR READONLY\nQ 1 4 1 504\nERR AUTH\nERR AUTH\n",
    );
}

#[test]
fn strings_and_byte_keys(rt: HostRuntime) {
    answers(
        &rt,
        rt.alloc(),
        b"AUTH alice abc\nJSLI s x7f 1\nJSLI s x80 2\nJSLI s x7f01 3\nJSLF s x\nJSLN s x7f\nJSLL s xff\nJSLP s x7f\n",
        b"OK\nV 0\nV 0\nV 0\nV 1 x7f\nV 3 x7f01\nV 2 x80\nNULL\n",
    );
    answers(
        &rt,
        rt.alloc(),
        b"AUTH alice abc\nJHSI h x 1\nJHSI h x00 2\nJHSG h x\nJHSG h x0000\nJHSD h x\nJHSFA h\n",
        b"OK\nV 0\nV 0\nV 1\nNULL\n1\nN 1\n",
    );
}

// Adds a line that begins with the text and goes on with this many letters.
fn push_line(script: &mut Vec<u8>, text: &[u8], letter: u8, many: usize) -> Result<(), Fail> {
    script.extend_from_slice(text)?;
    for _ in 0..many {
        script.push(letter)?;
    }
    script.push(b'\n')?;
    Ok(())
}

#[test]
fn long_lines(rt: HostRuntime) -> Result<(), Fail> {
    let mut script = Vec::new(rt.alloc());
    push_line(&mut script, b"AUTH alice abc", b' ', 0)?;
    push_line(&mut script, b"J1S a 1", b' ', 4089)?;
    push_line(&mut script, b"J1S a 2", b' ', 4090)?;
    push_line(&mut script, b"J1T a 1\r", b' ', 4089)?;
    push_line(&mut script, b"J1T a 1", b'\r', 1)?;
    push_line(&mut script, b"", b'A', 4096)?;
    push_line(&mut script, b"", b'A', 4097)?;
    push_line(&mut script, b"", b'A', 20_000)?;
    push_line(&mut script, b"J1T a 2", b' ', 0)?;
    let want = b"OK\n1\nERR LONG\nERR LONG\n1\nERR SYNTAX\nERR LONG\nERR LONG\n0\n".as_slice();
    for step in [1, 2, 4095, 4096, 4097] {
        for batch in BATCHES {
            let tape = Tape::new(script.as_slice(), &[], step, None);
            let page = Page::new(512, Refusal::Fails, None, None);
            let _used = serves(&rt, rt.alloc(), batch, tape, page, (End::End, want));
        }
    }
    Ok(())
}

// The state of a peer that sends more only after it has received the whole replies to all lines that
// it sent.
#[derive(Drop)]
struct Talk {
    // How many lines were sent whose replies the peer has not received.
    owed: Cell<usize>,
    // How many replies were written and wait for a flush.
    written: Cell<usize>,
    flushes: Cell<u64>,
}

impl Talk {
    fn new() -> Talk {
        Talk {
            owed: Cell::new(0),
            written: Cell::new(0),
            flushes: Cell::new(0),
        }
    }
}

// The peer's bytes: whole lines one by one, or this many bytes at a time. A read while a reply is
// missing would wait for ever, so it fails.
#[derive(Drop)]
struct Asks<'a> {
    rest: &'a [u8],
    step: Option<usize>,
    talk: &'a Talk,
}

impl<'a> Read for Asks<'a> {
    fn read(&mut self, buf: &mut [u8]) -> io::Result<usize> {
        if self.talk.owed.get() != 0 {
            return Err(ErrorKind::TimedOut.into());
        }
        let line = match self.rest.iter().position(|b| *b == b'\n') {
            Some(at) => at + 1,
            None => self.rest.len(),
        };
        let len = self.step.unwrap_or(line).min(self.rest.len());
        let n = len.min(buf.len());
        let (part, rest) = self.rest.split_at(n);
        buf[..n].copy_from_slice(part);
        self.rest = rest;
        self.talk.owed.set(count_lines(part));
        Ok(n)
    }
}

// What the peer receives: replies arrive when they are flushed.
#[derive(Drop)]
struct Hears<'a> {
    talk: &'a Talk,
}

impl<'a> Write for Hears<'a> {
    fn write(&mut self, buf: &[u8]) -> io::Result<usize> {
        let written = self.talk.written.get().saturating_add(count_lines(buf));
        self.talk.written.set(written);
        Ok(buf.len())
    }

    fn flush(&mut self) -> io::Result<()> {
        let talk = self.talk;
        talk.owed
            .set(talk.owed.get().saturating_sub(talk.written.get()));
        talk.written.set(0);
        talk.flushes.set(talk.flushes.get().saturating_add(1));
        Ok(())
    }
}

// Serves such a peer, and returns how often it was flushed.
fn flushes_of(rt: &impl Abort, alloc: Global, batch: Batch, step: Option<usize>) -> u64 {
    let talk = Talk::new();
    let mut source = Reads::new(Asks {
        rest: SCRIPT,
        step,
        talk: &talk,
    });
    let mut sink = Writes::new(Hears { talk: &talk });
    let mut house = House::new(alloc);
    same(
        rt,
        serve_by(alloc, batch, &mut house, &mut source, &mut sink),
        End::Quit,
    );
    talk.flushes.get()
}

#[test]
fn each_reply_goes_out_before_the_next_read(rt: HostRuntime) {
    // There is exactly one flush after each of the 20 replies.
    for batch in BATCHES {
        same(&rt, flushes_of(&rt, rt.alloc(), batch, None), 20);
    }
    // A read may end within a line: then the replies to the lines before it go out, each with a flush,
    // or with `EachRead` all with one.
    let until_quit = first_lines(SCRIPT, 20);
    for step in 1..SCRIPT.len() {
        let flushes = flushes_of(&rt, rt.alloc(), Batch::EachReply, Some(step));
        same_at(&rt, flushes, 20, step);
        let flushes = flushes_of(&rt, rt.alloc(), Batch::EachRead, Some(step));
        same_at(&rt, flushes, reads_with_lines(until_quit, step), step);
    }
}
