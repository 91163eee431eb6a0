//! Questions on the status socket.
use crate::many::theatre::{Part, giving, limits, play, stage};
use judy_many::{Ending, Limits, Question};
use judy_protocol::cut_line;
use std::test::Fail;

// How often a line is in a text.
fn count(text: &[u8], wanted: &[u8]) -> usize {
    let mut rest = text;
    let mut found = 0usize;
    for _line in 0..text.len() {
        let Some((line, after)) = cut_line(rest) else {
            return found;
        };
        if line == wanted {
            found = found.saturating_add(1);
        }
        rest = after;
    }
    found
}

// One client and a free slot, with a status socket.
fn watched() -> Limits {
    Limits {
        status: true,
        ..limits(2, 1)
    }
}

// Each status is that of the service after the lines of its round, and each is asked for after the
// replies of the round are written.
#[test]
fn a_status_is_that_of_its_round(rt: HostRuntime) -> Result<(), Fail> {
    let alloc = rt.alloc();
    let lines = *b"AUTH alice abc\nJ1S a 1\nJ1S a 2\nQUIT\n";
    let parts = [Part {
        step: 23,
        ..giving(&lines)
    }];
    let questions = [Question::Status, Question::Status];
    let mut stage = stage(alloc, &parts)?;
    stage.questions = &questions;
    let ending = play(alloc, &mut stage, watched())?;
    assert_eq!(rt; ending, Ending::Done);
    assert_eq!(rt; stage.asked(), b".a0r0w0?=|r0w0c0Q?=".as_slice());
    let text = stage.reported.as_slice();
    for line in [
        b"judyd_tenant_entries{tenant=\"alice\"} 1".as_slice(),
        b"judyd_tenant_entries{tenant=\"alice\"} 2".as_slice(),
        b"judyd_tenant_connections{tenant=\"alice\"} 1".as_slice(),
        b"judyd_tenant_connections{tenant=\"alice\"} 0".as_slice(),
    ] {
        assert_eq!(rt; count(text, line), 1);
    }
    for line in [
        b"judyd_tenant_entries{tenant=\"bob\"} 0".as_slice(),
        b"judyd_tenant_quota_entries{tenant=\"alice\"} 2".as_slice(),
        b"judyd_arrays 1".as_slice(),
        b"judyd_name_bytes 1".as_slice(),
        b"judyd_tenant_connections{tenant=\"bob\"} 0".as_slice(),
        b"judyd_connections_without_tenant 0".as_slice(),
        b"judyd_refused_requests_total 0".as_slice(),
        b"# TYPE judyd_live_words gauge".as_slice(),
    ] {
        assert_eq!(rt; count(text, line), 2);
    }
    Ok(())
}

// A stop ends the loop after the replies of the round, and other clients stay as they are.
#[test]
fn a_stop_comes_after_the_replies(rt: HostRuntime) -> Result<(), Fail> {
    let alloc = rt.alloc();
    let lines = *b"AUTH alice abc\nJ1S a 1\n";
    let parts = [giving(&lines)];
    let questions = [Question::Stop];
    let mut stage = stage(alloc, &parts)?;
    stage.questions = &questions;
    let ending = play(alloc, &mut stage, watched())?;
    assert_eq!(rt; ending, Ending::Stopped);
    assert_eq!(rt; stage.asked(), b".a0r0w0!".as_slice());
    assert_eq!(rt; stage.scripts.len(), 1);
    assert_eq!(rt; stage.scripts[0].page.bytes(), b"OK\n1\n".as_slice());
    Ok(())
}

// Without a status socket nothing is asked.
#[test]
fn no_question_without_a_socket(rt: HostRuntime) -> Result<(), Fail> {
    let alloc = rt.alloc();
    let parts = [giving(b"J1T a 1\nQUIT\n")];
    let questions = [Question::Stop];
    let mut stage = stage(alloc, &parts)?;
    stage.questions = &questions;
    let ending = play(alloc, &mut stage, limits(2, 1))?;
    assert_eq!(rt; ending, Ending::Done);
    assert_eq!(rt; stage.asked(), b".a0r0w0c0Q".as_slice());
    Ok(())
}
