//! A source and a sink that allow only what a connection needs. A pull, push or flush that is not
//! allowed is a fault.

use crate::checks::same;
use crate::lines::house::House;
use crate::lines::tests::{BATCHES, serve_by};
use judy_protocol::{Batch, End};
use judy_stream::{Page, Pull, Push, Refusal, Sink, Source, Tape};
use std::test::Fail;

/// A tape that may be pulled into at most 4,096 bytes.
#[derive(Drop)]
struct Narrow<'a> {
    tape: Tape<'a>,
}

impl<'a> Source for Narrow<'a> {
    ghost source = { ? };

    fn pull(&mut self, buf: &mut [u8]) -> Pull {
        if buf.len() > 4096 {
            return Pull::Fault;
        }
        self.tape.pull(buf)
    }
}

/// A page that takes only bytes that end with a line feed. It may be flushed only if some bytes
/// wait. It counts pushes and flushes.
#[derive(Drop)]
struct WholeLines {
    page: Page<40960>,
    waits: bool,
    pushes: u64,
    flushes: u64,
}

impl Sink for WholeLines {
    ghost sink = { ? };

    fn push(&mut self, bytes: &[u8]) -> Push {
        self.pushes = self.pushes.saturating_add(1);
        if bytes.last() != Some(&b'\n') {
            return Push::Fault;
        }
        self.waits = true;
        self.page.push(bytes)
    }

    fn flush(&mut self) -> bool {
        self.flushes = self.flushes.saturating_add(1);
        if !self.waits {
            return false;
        }
        self.waits = false;
        self.page.flush()
    }
}

/// How many of the reads of this many bytes complete a line.
pub fn reads_with_lines(script: &[u8], step: usize) -> u64 {
    let mut reads = 0u64;
    let mut left = step;
    let mut found = false;
    for b in script {
        if left == 0 {
            left = step;
            found = false;
        }
        if *b == b'\n' && !found {
            reads = reads.saturating_add(1);
            found = true;
        }
        left = left.saturating_sub(1);
    }
    reads
}

// Each of the 6 replies is one text, or with `EachRead` those of a read.
#[test]
fn one_push_and_one_flush_a_text(rt: HostRuntime) {
    let replies: &[u8] = b"ERR AUTH\nOK\n1\nERR SYNTAX\n1\nBYE\n";
    let script = b"J1T a 5\nAUTH alice abc\nJ1S a 5\n\nJ1T a 5\nQUIT\n";
    for step in 1..60 {
        let reads = reads_with_lines(script, step);
        for (batch, texts) in [(Batch::EachReply, 6), (Batch::EachRead, reads)] {
            let mut house = House::new(rt.alloc());
            let mut source = Narrow {
                tape: Tape::new(script, &[], step, None),
            };
            let mut sink = WholeLines {
                page: Page::new(40960, Refusal::Fails, None, None),
                waits: false,
                pushes: 0,
                flushes: 0,
            };
            same(
                &rt,
                serve_by(rt.alloc(), batch, &mut house, &mut source, &mut sink),
                End::Quit,
            );
            same(&rt, sink.page.bytes(), replies);
            same(&rt, (sink.pushes, sink.flushes), (texts, texts));
        }
    }
    // Each line was a read of its own, and the whole script was one.
    same(
        &rt,
        (reads_with_lines(script, 1), reads_with_lines(script, 59)),
        (6, 1),
    );
}

// Adds a line that begins with the text and goes on with the 1,000 bytes of a long key.
fn push_key(script: &mut Vec<u8>, text: &[u8]) -> Result<(), Fail> {
    script.extend_from_slice(text)?;
    for _ in 0..2000 {
        script.push(b'7')?;
    }
    script.push(b'\n')?;
    Ok(())
}

// The answers to the lines of one read are more than the buffer holds, so they are three texts: seven
// replies of 2,006 bytes are as many as leave no room for the longest answer. If each reply is written
// alone, there are 18 texts.
#[test]
fn a_full_buffer_loses_no_line(rt: HostRuntime) -> Result<(), Fail> {
    let mut script = Vec::new(rt.alloc());
    script.extend_from_slice(b"AUTH alice abc\n")?;
    push_key(&mut script, b"JSLI s x")?;
    let mut replies = Vec::new(rt.alloc());
    replies.extend_from_slice(b"OK\nV 0\n")?;
    for _ in 0..16 {
        script.extend_from_slice(b"JSLF s x\n")?;
        push_key(&mut replies, b"V 0 x")?;
    }
    for batch in BATCHES {
        let texts = match batch {
            Batch::EachReply => 18,
            Batch::EachRead => 3,
        };
        let mut house = House::new(rt.alloc());
        let mut source = Narrow {
            tape: Tape::new(script.as_slice(), &[], 4096, None),
        };
        let mut sink = WholeLines {
            page: Page::new(40960, Refusal::Fails, None, None),
            waits: false,
            pushes: 0,
            flushes: 0,
        };
        same(
            &rt,
            serve_by(rt.alloc(), batch, &mut house, &mut source, &mut sink),
            End::End,
        );
        same(&rt, sink.page.bytes(), replies.as_slice());
        same(&rt, (sink.pushes, sink.flushes), (texts, texts));
    }
    Ok(())
}
