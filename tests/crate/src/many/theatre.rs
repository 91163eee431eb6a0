//! A service of two tenants, and connections that are served by it.
use crate::many::stage::{PAGE_LIMIT, Script, Stage};
use judy_journal::{SUM_LEN, Writer};
use judy_many::{Ending, Limits, serve_many};
use judy_programs::Opens;
use judy_server::Server;
use judy_stream::{Page, Refusal, Tape};
use judy_tenants::Sha256Hash;
use std::alloc::Global;
use std::test::Fail;

pub const TABLE: &[u8] = b"[alice]
sha256 = \"ba7816bf8f01cfea414140de5dae2223b00361a396177a9cb410ff61f20015ad\"
read_sha256 = \"3c01eba119e00d79c82b6f65d70bc5f1044d568618bf41377e6d1432023fc2b8\"
quota = 2
[bob]
sha256 = \"2cf24dba5fb0a30e26e83b2ac5b9e29e1b161e5c1fa7425e73043362938b9824\"
quota = 1000
";

// A connection: what it gives, at most this many bytes a read, where its reads fail, how many reads find
// anything, and where its writes are refused, and how.
#[derive(Clone, Copy)]
pub struct Part<'a> {
    pub bytes: &'a [u8],
    pub step: usize,
    pub fails_at: Option<usize>,
    pub reads: usize,
    pub refuses_at: Option<usize>,
    pub refusal: Refusal,
}

// A connection that gives these bytes, many at a read, and takes all that is written.
pub fn giving<'a>(bytes: &'a [u8]) -> Part<'a> {
    Part {
        bytes,
        step: 4096,
        fails_at: None,
        reads: 100_000,
        refuses_at: None,
        refusal: Refusal::Fails,
    }
}

// This many clients at once and connections, with no limit of time.
pub fn limits(clients: u32, connections: u32) -> Limits {
    Limits {
        clients,
        tenant_clients: None,
        share: 1024,
        connections: u64::from(connections),
        login: None,
        idle: None,
        turn: None,
        status: false,
        journal: None,
    }
}

// A stage with these connections.
pub fn stage<'a>(alloc: Global, parts: &[Part<'a>]) -> Result<Stage<'a>, Fail> {
    let mut scripts = Vec::new(alloc);
    for part in parts {
        let step = part.step.max(1);
        let page = Page::new(PAGE_LIMIT, part.refusal, part.refuses_at, None);
        let Ok(page) = Box::new(alloc, page) else {
            return Err(Fail::from("no memory"));
        };
        scripts.push(Script {
            tape: Tape::new(part.bytes, &[], step, part.fails_at),
            reads: part.reads,
            page,
        })?;
    }
    Ok(Stage::new(scripts))
}

// Serves the connections of a stage with a new service.
pub fn play(alloc: Global, stage: &mut Stage<'_>, limits: Limits) -> Result<Ending, Fail> {
    let Ok(mut service) = Server::<Sha256Hash>::open(alloc, b"secret", TABLE) else {
        return Err(Fail::from("no service"));
    };
    Ok(serve_many(alloc, stage, &mut service, limits, None))
}

// The same with a journal whose segment has this many bytes.
pub fn play_with(
    alloc: Global,
    stage: &mut Stage<'_>,
    limits: Limits,
    size: u64,
) -> Result<Ending, Fail> {
    let Ok(mut service) = Server::<Sha256Hash>::open(alloc, b"secret", TABLE) else {
        return Err(Fail::from("no service"));
    };
    let Ok(writer) = Box::new(alloc, Writer::new(1, &[b'0'; SUM_LEN], size)) else {
        return Err(Fail::from("no memory"));
    };
    Ok(serve_many(alloc, stage, &mut service, limits, Some(writer)))
}
