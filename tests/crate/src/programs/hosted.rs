//! The jobs, and a server over a system in memory.

use crate::checks::same;
use crate::programs::rows::{TABLE, Tenants, input};
use judy_command::Job;
use judy_many::{Accept, Got, How, Limits, Network, Put, Question, Queue, Unread};
use judy_model::Name;
use judy_programs::{Hosted, Hosts, Journals, Readies, check_on, host_on};
use judy_recovery::Resumed;
use judy_server::do_job_on;
use judy_stream::{Page, Pull, Push, Refusal, Sink, Source, Tape};
use judy_table::TableFault;
use judy_tenants::Sha256Hash;
use std::alloc::{AllocError, Global};
use std::process::Abort;
use std::test::Fail;

/// A connection that will come: what it sends, and where a read of it fails.
#[derive(Clone, Copy)]
struct Caller<'a> {
    script: &'a [u8],
    fails_at: Option<usize>,
}

/// A connection, by its number and its place.
#[derive(Drop)]
struct Call {
    id: u64,
    at: usize,
}

/// How often a system was asked for each thing.
#[derive(Clone, Copy, Debug, PartialEq, Eq)]
struct Counts {
    drawn: usize,
    opened: usize,
    shut: usize,
    bound: usize,
    watched: usize,
    accepted: usize,
    closed: usize,
}

/// Random bytes or none, a file, a path where a socket can be made or not, and connections that come
/// in order. When all have come, the listener is broken.
#[derive(Drop)]
struct Play<'a> {
    secret: Option<[u8; 16]>,
    file: Option<&'a [u8]>,
    binds: bool,
    watches: bool,
    controls: bool,
    counts: Counts,
    tapes: Vec<Tape<'a>>,
    pages: Vec<Page<256>>,
}

/// The first eight slots became ready.
fn mark_all(queue: &mut Queue) {
    for slot in 0..8usize {
        queue.mark_ready(slot);
    }
}

impl<'a> Network for Play<'a> {
    type Connection = Call;

    ghost log = { ? };

    ghost number = { ? };

    fn accept(&mut self, id: u64, _slot: usize) -> Accept<Call> {
        if self.counts.accepted >= self.tapes.len() {
            return Accept::Fault;
        }
        let at = self.counts.accepted;
        self.counts.accepted += 1;
        Accept::Came(Call { id, at })
    }

    fn wait(&mut self, _time: Option<u32>, queue: &mut Queue) -> Option<bool> {
        mark_all(queue);
        Some(true)
    }

    fn read(&mut self, connection: &mut Call, buf: &mut [u8]) -> Got {
        if connection.at >= self.tapes.len() {
            return Got::Fault;
        }
        match self.tapes[connection.at].pull(buf) {
            Pull::Bytes(n) => Got::Bytes(n),
            Pull::End => Got::End,
            Pull::Fault => Got::Fault,
        }
    }

    fn write(&mut self, connection: &mut Call, bytes: &[u8]) -> Put {
        if connection.at >= self.pages.len() {
            return Put::Fault;
        }
        match self.pages[connection.at].push(bytes) {
            Push::Took(n) => Put::Took(n),
            Push::Fault => Put::Fault,
        }
    }

    fn close(&mut self, _connection: &mut Call, _how: How) {
        self.counts.closed = self.counts.closed.saturating_add(1);
    }

    fn seconds(&mut self) -> Option<u64> {
        Some(0)
    }

    fn is_full(&self, _size: u64) -> bool {
        false
    }

    fn ask(&mut self) -> Question {
        if self.counts.accepted < self.tapes.len() || self.counts.closed < self.counts.accepted {
            return Question::Nothing;
        }
        Question::Stop
    }

    fn report(&mut self, _text: &[u8]) {}

    fn warn(&mut self, _text: &[u8]) {}

    fn table(&mut self, _text: &mut Vec<u8>) -> Result<(), Unread> {
        Err(Unread::File)
    }

    fn named(&mut self) -> Name {
        Name::of(b"")
    }

    fn reply(&mut self, _text: &[u8]) {}

    fn takes(&mut self, _connection: &Call, _tenant: &[u8], _limit: Option<u64>) -> bool {
        true
    }

    fn begin(&mut self, _segment: u64) -> bool {
        false
    }

    fn keep(&mut self, _bytes: &[u8]) -> bool {
        false
    }

    fn sync(&mut self) -> bool {
        false
    }
}

impl<'a> Hosts for Play<'a> {
    type File = Tape<'a>;

    fn secret(&mut self) -> Option<[u8; 16]> {
        self.counts.drawn = self.counts.drawn.saturating_add(1);
        self.secret
    }

    fn open(&mut self, _path: &str) -> Option<Tape<'a>> {
        self.counts.opened = self.counts.opened.saturating_add(1);
        let file = self.file?;
        Some(Tape::new(file, &[], 4096, None))
    }

    fn shut(&mut self, _file: Tape<'a>) {
        self.counts.shut = self.counts.shut.saturating_add(1);
    }

    fn bind(&mut self, _alloc: Global, _path: &str) -> bool {
        self.counts.bound = self.counts.bound.saturating_add(1);
        self.binds
    }

    fn watch(&mut self, _path: &str) -> bool {
        self.counts.watched = self.counts.watched.saturating_add(1);
        self.watches
    }

    fn control(&mut self, _path: &str) -> bool {
        self.counts.watched = self.counts.watched.saturating_add(1);
        self.controls
    }
}

// It has no journal.
impl<'a> Journals for Play<'a> {
    fn resume<P: Readies>(&mut self, _: Global, _: &str, _: &mut P) -> Option<Resumed> {
        None
    }

    fn look<P: Readies>(&mut self, _: Global, _: &str, _: &mut P) -> bool {
        false
    }
}

const SET: Caller<'static> = Caller {
    script: b"AUTH alice abc\nJ1S a 1\n",
    fails_at: None,
};

const CUT: Caller<'static> = Caller {
    script: b"AUTH alice abc\nJ1S a 2\nJ1S a 3\n",
    fails_at: Some(24),
};

const NOBODY: Caller<'static> = Caller {
    script: b"J1T a 1\nAUTH bob hello\nJ1T a 1\nQUIT\n",
    fails_at: None,
};

const LOOK: Caller<'static> = Caller {
    script: b"AUTH alice abc\nJ1T a 1\nJ1T a 2\nJ1T a 3\nQUIT\n",
    fails_at: None,
};

/// Nothing was asked for.
const NOTHING: Counts = Counts {
    drawn: 0,
    opened: 0,
    shut: 0,
    bound: 0,
    watched: 0,
    accepted: 0,
    closed: 0,
};

/// A system where everything can be made, and to which these callers come.
fn with_callers<'a>(alloc: Global, callers: &[Caller<'a>]) -> Result<Play<'a>, AllocError> {
    let mut tapes = Vec::new(alloc);
    let mut pages = Vec::new(alloc);
    for caller in callers {
        tapes.push(Tape::new(caller.script, &[], 7, caller.fails_at))?;
        pages.push(Page::new(256, Refusal::Fails, None, None))?;
    }
    Ok(Play {
        secret: Some([7; 16]),
        file: Some(TABLE.as_bytes()),
        binds: true,
        watches: true,
        controls: true,
        counts: NOTHING,
        tapes,
        pages,
    })
}

/// A server that is started, and what comes of it.
#[derive(Clone, Copy)]
struct Start {
    socket: &'static str,
    status: Option<&'static str>,
    reserve: Option<u32>,
    clients: u32,
    connections: u64,
    hosted: Hosted,
    counts: Counts,
}

/// A server of one client at a time and one connection, which ends well.
const PLAIN: Start = Start {
    socket: "s",
    status: None,
    reserve: None,
    clients: 1,
    connections: 1,
    hosted: Hosted::Done,
    counts: NOTHING,
};

/// How a server ends on this system.
fn host(alloc: Global, system: &mut Play<'_>, start: &Start) -> Hosted {
    let limits = Limits {
        clients: start.clients,
        tenant_clients: None,
        share: 1024,
        connections: start.connections,
        login: None,
        idle: None,
        turn: None,
        status: start.status.is_some(),
        journal: None,
    };
    host_on::<Tenants, _>(
        alloc,
        b"secret",
        system,
        "c",
        start.socket,
        start.status,
        None,
        start.reserve,
        limits,
    )
}

/// Starts a server on this system, and compares how it ends, and how often each thing was asked for
/// since the system is there.
fn check(rt: &impl Abort, alloc: Global, system: &mut Play<'_>, start: &Start) {
    let hosted = host(alloc, system, start);
    same(rt, hosted, start.hosted);
    same(rt, system.counts, start.counts);
}

/// Compares what each caller read.
fn compare_pages(rt: &impl Abort, system: &Play<'_>, wanted: &[&[u8]]) {
    same(rt, system.pages.len(), wanted.len());
    for (page, want) in system.pages.iter().zip(wanted) {
        same(rt, page.bytes(), *want);
    }
}

static IN_ORDER: Start = Start {
    connections: 4,
    counts: Counts {
        opened: 1,
        shut: 1,
        bound: 1,
        accepted: 4,
        closed: 4,
        ..NOTHING
    },
    ..PLAIN
};

// Four connections, one after another. A failed read ends the second. Arrays stay, logins do not, and
// the next connection is served.
#[test]
fn connections_in_order(rt: HostRuntime) -> Result<(), Fail> {
    let mut system = with_callers(rt.alloc(), &[SET, CUT, NOBODY, LOOK])?;
    check(&rt, rt.alloc(), &mut system, &IN_ORDER);
    let want: [&[u8]; 4] = [
        b"OK\n1\n",
        b"OK\n1\n",
        b"ERR AUTH\nOK\n0\nBYE\n",
        b"OK\n1\n1\n0\nBYE\n",
    ];
    compare_pages(&rt, &system, &want);
    Ok(())
}

static AT_ONCE: Start = Start {
    reserve: Some(2),
    clients: 8,
    connections: 3,
    counts: Counts {
        opened: 1,
        shut: 1,
        bound: 1,
        accepted: 3,
        closed: 3,
        ..NOTHING
    },
    ..PLAIN
};

// Three connections at once, each with its own log-in.
#[test]
fn connections_at_once(rt: HostRuntime) -> Result<(), Fail> {
    let mut system = with_callers(rt.alloc(), &[SET, NOBODY, CUT])?;
    check(&rt, rt.alloc(), &mut system, &AT_ONCE);
    let want: [&[u8]; 3] = [b"OK\n1\n", b"ERR AUTH\nOK\n0\nBYE\n", b"OK\n1\n"];
    compare_pages(&rt, &system, &want);
    Ok(())
}

static BROKEN: Start = Start {
    connections: 70000,
    hosted: Hosted::Socket,
    counts: Counts {
        opened: 1,
        shut: 1,
        bound: 1,
        accepted: 2,
        closed: 2,
        ..NOTHING
    },
    ..PLAIN
};

// The listener breaks after the connections before were served.
#[test]
fn a_broken_listener(rt: HostRuntime) -> Result<(), Fail> {
    let mut system = with_callers(rt.alloc(), &[SET, LOOK])?;
    check(&rt, rt.alloc(), &mut system, &BROKEN);
    Ok(())
}

static STOPPED: Start = Start {
    status: Some("t"),
    clients: 2,
    connections: 2,
    hosted: Hosted::Stopped,
    counts: Counts {
        opened: 1,
        shut: 1,
        bound: 1,
        watched: 1,
        accepted: 2,
        closed: 2,
        ..NOTHING
    },
    ..PLAIN
};

// A stop after all connections were served.
#[test]
fn a_stop(rt: HostRuntime) -> Result<(), Fail> {
    let mut system = with_callers(rt.alloc(), &[SET, LOOK])?;
    check(&rt, rt.alloc(), &mut system, &STOPPED);
    Ok(())
}

static UNWATCHED: Start = Start {
    status: Some("t"),
    clients: 2,
    connections: 3,
    hosted: Hosted::Socket,
    counts: Counts {
        opened: 1,
        shut: 1,
        bound: 1,
        watched: 1,
        ..NOTHING
    },
    ..PLAIN
};

static OF_NO_STATUS_PATH: Start = Start {
    status: Some(""),
    clients: 2,
    connections: 3,
    hosted: Hosted::Socket,
    counts: Counts {
        opened: 2,
        shut: 2,
        bound: 2,
        watched: 1,
        ..NOTHING
    },
    ..PLAIN
};

// No status socket can be made, first in this system, then at an empty path. No connection is accepted.
#[test]
fn no_status_socket(rt: HostRuntime) -> Result<(), Fail> {
    let mut system = with_callers(rt.alloc(), &[SET])?;
    system.watches = false;
    check(&rt, rt.alloc(), &mut system, &UNWATCHED);
    check(&rt, rt.alloc(), &mut system, &OF_NO_STATUS_PATH);
    Ok(())
}

/// What a check of the table comes to on this system.
fn look(alloc: Global, system: &mut Play<'_>, reserve: Option<u32>) -> Hosted {
    check_on::<Tenants, _>(alloc, b"secret", system, "c", reserve)
}

// A check of the table: no socket is made, and no connection is accepted.
#[test]
fn a_look_at_the_table(rt: HostRuntime) -> Result<(), Fail> {
    let mut system = with_callers(rt.alloc(), &[SET])?;
    same(&rt, look(rt.alloc(), &mut system, Some(1)), Hosted::Done);
    system.file = Some(b"alice = 1\n");
    let hosted = look(rt.alloc(), &mut system, None);
    same(&rt, hosted, Hosted::Table(TableFault::Shape));
    system.file = None;
    same(&rt, look(rt.alloc(), &mut system, None), Hosted::Config);
    let counts = Counts {
        opened: 3,
        shut: 2,
        ..NOTHING
    };
    same(&rt, system.counts, counts);
    Ok(())
}

static OF_NO_FILE: Start = Start {
    hosted: Hosted::Config,
    counts: Counts {
        opened: 1,
        ..NOTHING
    },
    ..PLAIN
};

// Without a file there is no service, and no socket is asked for.
#[test]
fn no_file(rt: HostRuntime) -> Result<(), Fail> {
    let mut system = with_callers(rt.alloc(), &[SET])?;
    system.file = None;
    check(&rt, rt.alloc(), &mut system, &OF_NO_FILE);
    Ok(())
}

static OF_NO_PATH: Start = Start {
    socket: "",
    hosted: Hosted::Socket,
    counts: Counts {
        opened: 1,
        shut: 1,
        ..NOTHING
    },
    ..PLAIN
};

static UNBOUND: Start = Start {
    hosted: Hosted::Socket,
    counts: Counts {
        opened: 2,
        shut: 2,
        bound: 1,
        ..NOTHING
    },
    ..PLAIN
};

// Without a socket no connection is accepted: first at an empty path, then where none can be made.
#[test]
fn no_socket(rt: HostRuntime) -> Result<(), Fail> {
    let mut system = with_callers(rt.alloc(), &[SET])?;
    check(&rt, rt.alloc(), &mut system, &OF_NO_PATH);
    system.binds = false;
    check(&rt, rt.alloc(), &mut system, &UNBOUND);
    Ok(())
}

// A run that draws this secret: its status, its line on standard error, and what it writes.
fn run_drawn(
    rt: &impl Abort,
    alloc: Global,
    secret: Option<[u8; 16]>,
    status: u8,
    line: Option<&str>,
    replies: &[u8],
) -> Result<(), Fail> {
    let script = input(alloc, TABLE, "AUTH alice abc\nJ1S a 1\n")?;
    let mut system = with_callers(alloc, &[])?;
    system.secret = secret;
    let mut tape = Tape::new(script.as_str().as_bytes(), &[], 4096, None);
    let mut page: Page<256> = Page::new(256, Refusal::Fails, None, None);
    let job = Job::Run {
        words: false,
        batch: false,
    };
    let ended = do_job_on::<Sha256Hash, _, _, _>(alloc, &job, &mut tape, &mut page, &mut system);
    same(
        rt,
        (ended.0, ended.1, page.bytes()),
        (status, line, replies),
    );
    let counts = Counts {
        drawn: 1,
        ..NOTHING
    };
    same(rt, system.counts, counts);
    Ok(())
}

// A run draws one secret. Without random bytes nothing is read or written.
#[test]
fn a_run_draws_a_secret(rt: HostRuntime) -> Result<(), Fail> {
    run_drawn(&rt, rt.alloc(), Some([7; 16]), 0, None, b"OK\n1\n")?;
    run_drawn(&rt, rt.alloc(), None, 4, Some("judyd: random fault"), b"")
}
