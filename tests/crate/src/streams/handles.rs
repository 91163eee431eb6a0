//! The handles over std's readers and writers in memory, and over some that fail.
use crate::checks::{holds, same};
use judy_stream::{Pull, Push, Reads, Sink, Source, Writes};
use std::io::{self, ErrorKind, Read, Write};
use std::test::Fail;

// Gives a byte, is interrupted, breaks, gives another byte, and ends.
#[derive(Drop)]
struct Flaky {
    reads: u8,
}

impl Read for Flaky {
    fn read(&mut self, buf: &mut [u8]) -> io::Result<usize> {
        self.reads = self.reads.saturating_add(1);
        match (self.reads, buf) {
            (1 | 4, [first, ..]) => {
                *first = b'a';
                Ok(1)
            }
            (2, _) => Err(ErrorKind::Interrupted.into()),
            (3, _) => Err(ErrorKind::BrokenPipe.into()),
            _ => Ok(0),
        }
    }
}

// Takes a byte, is interrupted, breaks, takes none, and takes a byte. Its first flush fails.
#[derive(Drop)]
struct Balky {
    writes: u8,
    flushes: u8,
}

impl Write for Balky {
    fn write(&mut self, buf: &[u8]) -> io::Result<usize> {
        self.writes = self.writes.saturating_add(1);
        match self.writes {
            2 => Err(ErrorKind::Interrupted.into()),
            3 => Err(ErrorKind::BrokenPipe.into()),
            4 => Ok(0),
            _ => Ok(buf.len().min(1)),
        }
    }

    fn flush(&mut self) -> io::Result<()> {
        self.flushes = self.flushes.saturating_add(1);
        if self.flushes == 1 {
            return Err(ErrorKind::BrokenPipe.into());
        }
        Ok(())
    }
}

#[test]
fn reads_of_a_slice(rt: HostRuntime) {
    let mut reads = Reads::new(b"xyz".as_slice());
    let mut buf = [b'-'; 2];
    for (answer, want) in [
        (Pull::Bytes(2), b"xy"),
        (Pull::Bytes(1), b"zy"),
        (Pull::End, b"zy"),
        (Pull::End, b"zy"),
    ] {
        same(&rt, reads.pull(&mut buf), answer);
        same(&rt, buf, *want);
    }
}

#[test]
fn a_failed_read_is_a_fault(rt: HostRuntime) {
    let mut reads = Reads::new(Flaky { reads: 0 });
    let mut buf = [0u8; 2];
    for answer in [
        Pull::Bytes(1),
        Pull::Fault,
        Pull::Fault,
        Pull::Bytes(1),
        Pull::End,
    ] {
        same(&rt, reads.pull(&mut buf), answer);
    }
}

#[test]
fn writes_to_a_vector(rt: HostRuntime) -> Result<(), Fail> {
    let mut vector = Vec::new(rt.alloc());
    let mut writes = Writes::new(&mut vector);
    let mut took = writes.push(b"xy");
    if took == Push::Fault {
        // The vector is refused memory: the first write writes nothing, and the second succeeds.
        took = writes.push(b"xy");
    }
    same(&rt, took, Push::Took(2));
    holds(&rt, writes.flush());
    same(&rt, writes.push(b"z"), Push::Took(1));
    same(&rt, vector.as_slice(), b"xyz".as_slice());
    Ok(())
}

#[test]
fn a_failed_write_is_a_fault(rt: HostRuntime) {
    let mut writes = Writes::new(Balky {
        writes: 0,
        flushes: 0,
    });
    for answer in [
        Push::Took(1),
        Push::Fault,
        Push::Fault,
        Push::Took(0),
        Push::Took(1),
    ] {
        same(&rt, writes.push(b"ab"), answer);
    }
    holds(&rt, !writes.flush());
    holds(&rt, writes.flush());
}

// Counts the calls made to it.
#[derive(Drop)]
struct Counting {
    reads: u8,
    writes: u8,
    flushes: u8,
}

impl Read for Counting {
    fn read(&mut self, buf: &mut [u8]) -> io::Result<usize> {
        self.reads = self.reads.saturating_add(1);
        Ok(buf.len())
    }
}

impl Write for Counting {
    fn write(&mut self, buf: &[u8]) -> io::Result<usize> {
        self.writes = self.writes.saturating_add(1);
        Ok(buf.len())
    }

    fn flush(&mut self) -> io::Result<()> {
        self.flushes = self.flushes.saturating_add(1);
        Ok(())
    }
}

// Nothing was called yet.
fn uncounted() -> Counting {
    Counting {
        reads: 0,
        writes: 0,
        flushes: 0,
    }
}

// Each pull is one read, each push is one write, and each flush is one flush.
#[test]
fn one_call_for_one_call(rt: HostRuntime) {
    let mut counting = uncounted();
    let mut reads = Reads::new(&mut counting);
    same(&rt, reads.pull(&mut [0u8; 2]), Pull::Bytes(2));
    same(&rt, reads.pull(&mut [0u8; 1]), Pull::Bytes(1));
    same(&rt, counting.reads, 2);
    let mut writes = Writes::new(&mut counting);
    same(&rt, writes.push(b"ab"), Push::Took(2));
    holds(&rt, writes.flush());
    same(&rt, writes.push(b"ab"), Push::Took(2));
    same(&rt, writes.push(b"c"), Push::Took(1));
    holds(&rt, writes.flush());
    holds(&rt, writes.flush());
    same(&rt, (counting.writes, counting.flushes), (3, 3));
}

// Fails with an error at its first call, and gives or takes all at the next.
#[derive(Drop)]
struct Late {
    kind: ErrorKind,
    calls: u8,
}

impl Read for Late {
    fn read(&mut self, buf: &mut [u8]) -> io::Result<usize> {
        self.calls = self.calls.saturating_add(1);
        if self.calls == 1 {
            return Err(self.kind.into());
        }
        Ok(buf.len())
    }
}

impl Write for Late {
    fn write(&mut self, buf: &[u8]) -> io::Result<usize> {
        self.calls = self.calls.saturating_add(1);
        if self.calls == 1 {
            return Err(self.kind.into());
        }
        Ok(buf.len())
    }

    fn flush(&mut self) -> io::Result<()> {
        self.calls = self.calls.saturating_add(1);
        if self.calls == 1 {
            return Err(self.kind.into());
        }
        Ok(())
    }
}

// A call that timed out is not tried again.
#[test]
fn one_call_for_a_late_call(rt: HostRuntime) {
    for kind in [
        ErrorKind::TimedOut,
        ErrorKind::WouldBlock,
        ErrorKind::Interrupted,
    ] {
        let mut late = Late { kind, calls: 0 };
        same(&rt, Reads::new(&mut late).pull(&mut [0u8; 2]), Pull::Fault);
        same(&rt, late.calls, 1);
        late.calls = 0;
        same(&rt, Writes::new(&mut late).push(b"ab"), Push::Fault);
        same(&rt, late.calls, 1);
        late.calls = 0;
        holds(&rt, !Writes::new(&mut late).flush());
        same(&rt, late.calls, 1);
    }
}

// A pull offers its whole buffer to the reader, and a push its whole slice to the writer.
#[test]
fn all_is_offered(rt: HostRuntime) {
    let mut counting = uncounted();
    let mut buf = [0u8; 4096];
    let mut reads = Reads::new(&mut counting);
    same(&rt, reads.pull(&mut buf), Pull::Bytes(4096));
    let mut writes = Writes::new(&mut counting);
    same(&rt, writes.push(&buf), Push::Took(4096));
}
