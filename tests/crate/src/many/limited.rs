//! A limit for the connections of each tenant.
use crate::many::theatre::{Part, giving, limits, play, stage};
use judy_many::{Ending, Limits};
use std::alloc::Global;
use std::test::Fail;

// One connection a tenant.
fn limited(clients: u32) -> Limits {
    Limits {
        tenant_clients: Some(1),
        ..limits(clients, clients)
    }
}

// How many of the connections get another text than the wanted one.
fn differences(alloc: Global, parts: &[Part<'_>], wanted: &[&[u8]]) -> Result<u32, Fail> {
    let mut stage = stage(alloc, parts)?;
    let ending = play(alloc, &mut stage, limited(parts.len().min(9) as u32))?;
    let mut wrong = 0u32;
    if ending != Ending::Done || stage.scripts.len() != wanted.len() {
        wrong = 100;
    }
    for (script, text) in stage.scripts.iter().zip(wanted.iter()) {
        if script.page.bytes() != *text {
            wrong = wrong.saturating_add(1);
        }
    }
    Ok(wrong)
}

// The second connection of alice is refused, and so is nobody's. A log-in again on the first is not, nor is
// one of bob. A wrong token is told as ever.
#[test]
fn a_second_connection_is_refused(rt: HostRuntime) -> Result<(), Fail> {
    let parts = [
        giving(b"AUTH alice abc\nAUTH alice abc\nJ1S a 1\n"),
        giving(b"AUTH bob hello\nAUTH alice abc\nJ1T a 1\nAUTH alice wrong\n"),
        giving(b"AUTH bob hello\nJ1T a 1\n"),
    ];
    let wanted: [&[u8]; 3] = [
        b"OK\nOK\n1\n",
        b"OK\nERR CLIENTS\nERR AUTH\nERR AUTH\n",
        b"OK\n0\n",
    ];
    assert_eq!(rt; differences(rt.alloc(), &parts, &wanted)?, 0);
    Ok(())
}

// Once the first connection has ended, the next log-in is not refused.
#[test]
fn a_connection_that_ended_does_not_count(rt: HostRuntime) -> Result<(), Fail> {
    let parts = [
        giving(b"AUTH alice abc\nQUIT\n"),
        Part {
            step: 15,
            ..giving(b"AUTH alice abc\nAUTH alice abc\nQUIT\n")
        },
    ];
    let wanted: [&[u8]; 2] = [b"OK\nBYE\n", b"ERR CLIENTS\nOK\nBYE\n"];
    assert_eq!(rt; differences(rt.alloc(), &parts, &wanted)?, 0);
    Ok(())
}

// A connection with the reading token counts, and is refused.
#[test]
fn a_reading_connection_counts(rt: HostRuntime) -> Result<(), Fail> {
    let parts = [
        giving(b"AUTH alice look\nJ1T a 1\n"),
        giving(b"AUTH alice abc\n"),
        giving(b"AUTH alice look\n"),
    ];
    let wanted: [&[u8]; 3] = [b"OK\n0\n", b"ERR CLIENTS\n", b"ERR CLIENTS\n"];
    assert_eq!(rt; differences(rt.alloc(), &parts, &wanted)?, 0);
    Ok(())
}
