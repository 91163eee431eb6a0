//! The journal: what is kept and synced, and when, before answers are written.
use crate::many::stage::SEGMENT_LIMIT;
use crate::many::theatre::{Part, giving, limits, play, play_with, stage};
use judy_many::{Ending, Limits, Sync};
use judy_protocol::cut_line;
use std::alloc::Global;
use std::test::Fail;

// As many connections, two slots at least, and a journal that is synced by this rule.
fn journaled(clients: u32, rule: Sync) -> Limits {
    Limits {
        journal: Some(rule),
        ..limits(clients.max(2), clients)
    }
}

// The records of a journal's text: its lines that are no marks, no notes and no headers.
fn is_record(line: &[u8]) -> bool {
    !line.starts_with(b"# ") && !line.starts_with(b"@ ") && !line.starts_with(b"judyd journal ")
}

// Whether the records of the text are these, in this order.
fn has_records(text: &[u8], records: &[&[u8]]) -> bool {
    let mut rest = text;
    let mut found = 0usize;
    for _line in 0..text.len() {
        let Some((line, after)) = cut_line(rest) else {
            return found == records.len();
        };
        if is_record(line) {
            if found >= records.len() || line != records[found] {
                return false;
            }
            found += 1;
        }
        rest = after;
    }
    found == records.len()
}

// How many lines of the text begin with these bytes.
fn count(text: &[u8], front: &[u8]) -> usize {
    let mut rest = text;
    let mut found = 0usize;
    for _line in 0..text.len() {
        let Some((line, after)) = cut_line(rest) else {
            return found;
        };
        if line.starts_with(front) {
            found = found.saturating_add(1);
        }
        rest = after;
    }
    found
}

// Two clients in one round share one commit and one sync, and both are answered after it.
#[test]
fn two_clients_share_a_sync(rt: HostRuntime) -> Result<(), Fail> {
    let alloc = rt.alloc();
    let parts = [
        giving(b"AUTH alice abc\nJ1S a 1\nQUIT\n"),
        giving(b"AUTH bob hello\nJLI b 7 8\r\nQUIT\n"),
    ];
    let mut stage = stage(alloc, &parts)?;
    let ending = play_with(alloc, &mut stage, journaled(2, Sync::Round), 0)?;
    assert_eq!(rt; ending, Ending::Done);
    assert_eq!(rt; stage.asked(), b".a0a1r0r1w0w1.y0y1ksw0c0Qw1c1Q".as_slice());
    let text = stage.journal.as_slice();
    assert!(rt; has_records(text, &[b"alice J1S a 1", b"bob JLI b 7 8"]));
    assert_eq!(rt; count(text, b"# 3 "), 1);
    assert_eq!(rt; count(text, b"@ "), 1);
    assert_eq!(rt; stage.scripts.len(), 2);
    assert_eq!(rt; stage.scripts[0].page.bytes(), b"OK\n1\nBYE\n".as_slice());
    Ok(())
}

// Calls that look, log-ins, lines that are no requests, refused calls, and calls that left all as it was
// have no record; a removal has one. A record has its line with one space between fields.
#[test]
fn only_changes_are_recorded(rt: HostRuntime) -> Result<(), Fail> {
    let alloc = rt.alloc();
    let lines =
        b"J1S a 9\nAUTH alice abc\n J1S  a 1\nJ1S a   1\nJ1S a 2\nJ1S a 3\nJ1T a 1\nnonsense\nJ1U a 1 \nJ1U a 1\nQUIT\n";
    let parts = [giving(lines)];
    let mut stage = stage(alloc, &parts)?;
    let ending = play_with(alloc, &mut stage, journaled(1, Sync::Round), 0)?;
    assert_eq!(rt; ending, Ending::Done);
    assert_eq!(rt; stage.scripts.len(), 1);
    assert_eq!(rt;
        stage.scripts[0].page.bytes(),
        b"ERR AUTH\nOK\n1\n0\n1\nFULL\n1\nERR SYNTAX\n1\n0\nBYE\n".as_slice()
    );
    let records: [&[u8]; 3] = [b"alice J1S a 1", b"alice J1S a 2", b"alice J1U a 1"];
    assert!(rt; has_records(stage.journal.as_slice(), &records));
    Ok(())
}

// A round in which nothing changed writes nothing to the journal. A server without one asks nothing of it.
#[test]
fn no_change_costs_nothing(rt: HostRuntime) -> Result<(), Fail> {
    let alloc = rt.alloc();
    let parts = [giving(b"AUTH alice abc\nJ1T a 1\nQUIT\n")];
    let mut looking = stage(alloc, &parts)?;
    let ending = play_with(alloc, &mut looking, journaled(1, Sync::Round), 0)?;
    assert_eq!(rt; ending, Ending::Done);
    assert_eq!(rt; looking.asked(), b".a0r0w0.y0w0c0Q".as_slice());
    let parts = [giving(b"AUTH alice abc\nJ1S a 1\nQUIT\n")];
    let mut without = stage(alloc, &parts)?;
    let ending = play(alloc, &mut without, limits(2, 1))?;
    assert_eq!(rt; ending, Ending::Done);
    assert_eq!(rt; without.asked(), b".a0r0w0c0Q".as_slice());
    Ok(())
}

// If bytes cannot be kept, or the sync fails, no answer to a line after the log-in goes out, and the server ends.
#[test]
fn a_journal_that_fails_ends_the_server(rt: HostRuntime) -> Result<(), Fail> {
    let alloc = rt.alloc();
    for place in 0..2usize {
        let parts = [giving(b"AUTH alice abc\nJ1S a 1\n")];
        let mut stage = stage(alloc, &parts)?;
        stage.fails_at = place;
        let ending = play_with(alloc, &mut stage, journaled(1, Sync::Round), 0)?;
        assert_eq!(rt; ending, Ending::Journal);
        let asked = if place == 0 {
            b".a0r0w0.y0z".as_slice()
        } else {
            b".a0r0w0.y0kz"
        };
        assert_eq!(rt; stage.asked(), asked);
        assert_eq!(rt; stage.scripts.len(), 1);
        assert_eq!(rt; stage.scripts[0].page.bytes(), b"OK\n".as_slice());
    }
    Ok(())
}

// A full segment is synced, and the next one begins with its header before the answers.
#[test]
fn a_full_segment_is_followed_by_the_next(rt: HostRuntime) -> Result<(), Fail> {
    let alloc = rt.alloc();
    let lines = *b"AUTH alice abc\nJ1S a 1\nJ1S a 2\nQUIT\n";
    let parts = [Part {
        step: 23,
        ..giving(&lines)
    }];
    let mut stage = stage(alloc, &parts)?;
    let ending = play_with(alloc, &mut stage, journaled(1, Sync::Never), SEGMENT_LIMIT)?;
    assert_eq!(rt; ending, Ending::Done);
    assert_eq!(rt; stage.asked(), b".a0r0w0.y0ksbksw0.r0y0kw0c0Q".as_slice());
    assert_eq!(rt; count(stage.journal.as_slice(), b"judyd journal 1 2 "), 1);
    for place in 0..5usize {
        let mut failing = crate::many::theatre::stage(alloc, &parts)?;
        failing.fails_at = place;
        let ending = play_with(
            alloc,
            &mut failing,
            journaled(1, Sync::Never),
            SEGMENT_LIMIT,
        )?;
        assert_eq!(rt; ending, Ending::Journal);
        assert_eq!(rt; failing.scripts.len(), 1);
        assert_eq!(rt; failing.scripts[0].page.bytes(), b"OK\n".as_slice());
    }
    Ok(())
}

// The lines of a client that come in three reads, the log-in in the first.
const THREE_READS: [u8; 44] = *b"AUTH alice abc\nJ1S a 1\nJ1U a 1\nJ1S a 2\nQUIT\n";

// By seconds the journal is synced once this number of them has passed.
#[test]
fn syncs_by_seconds(rt: HostRuntime) -> Result<(), Fail> {
    let alloc = rt.alloc();
    let lines = THREE_READS;
    let times = [Some(3), Some(8), Some(9), Some(13)];
    let parts = [Part {
        step: 15,
        ..giving(&lines)
    }];
    let mut timed = stage(alloc, &parts)?;
    timed.times = &times;
    let ending = play_with(alloc, &mut timed, journaled(1, Sync::Seconds(5)), 0)?;
    assert_eq!(rt; ending, Ending::Done);
    assert_eq!(rt; timed.asked(), b".a0r0w0|r0y0kw0:r0y0ksw0c0Q".as_slice());
    Ok(())
}

// Without a rule of its own it is never synced.
#[test]
fn never_syncs(rt: HostRuntime) -> Result<(), Fail> {
    let alloc = rt.alloc();
    let lines = THREE_READS;
    let parts = [Part {
        step: 15,
        ..giving(&lines)
    }];
    let mut never = stage(alloc, &parts)?;
    let ending = play_with(alloc, &mut never, journaled(1, Sync::Never), 0)?;
    assert_eq!(rt; ending, Ending::Done);
    assert_eq!(rt; never.asked(), b".a0r0w0|r0y0kw0|r0y0kw0c0Q".as_slice());
    Ok(())
}

// Lines of a client: a log-in, and 300 insertions and removals. Each changes something, but where another
// client's lines come between.
fn many_lines(alloc: Global) -> Result<Vec<u8>, Fail> {
    let mut lines = Vec::new(alloc);
    lines.extend_from_slice(b"AUTH bob hello\n")?;
    for _pair in 0..150usize {
        lines.extend_from_slice(b"J1S a 1\nJ1U a 1\n")?;
    }
    lines.extend_from_slice(b"QUIT\n")?;
    Ok(lines)
}

// Records that one commit has no room for are kept as two, before any answer of the round. A client
// whose records have no room goes on in the next round.
#[test]
fn records_beyond_one_commit(rt: HostRuntime) -> Result<(), Fail> {
    let alloc = rt.alloc();
    let lines = many_lines(alloc)?;
    let part = giving(lines.as_slice());
    let parts = [part, part, part, part, part];
    let mut stage = stage(alloc, &parts)?;
    let ending = play_with(alloc, &mut stage, journaled(5, Sync::Round), 0)?;
    assert_eq!(rt; ending, Ending::Done);
    assert_eq!(rt;
        stage.asked(),
        b".a0a1a2a3a4r0r1r2r3r4w0w1w2w3w4.y0y1y2y3ky4ksw0c0Qw1c1Qw2c2Qw3w4c4Q.y3ksw3c3Q".as_slice()
    );
    let text = stage.journal.as_slice();
    let records = count(text, b"bob J1S a 1").saturating_add(count(text, b"bob J1U a 1"));
    assert_eq!(rt; count(text, b"# "), 3);
    let mut changed: usize = 0;
    for script in stage.scripts.iter() {
        let (zeros, ones) = (
            count(script.page.bytes(), b"0"),
            count(script.page.bytes(), b"1"),
        );
        assert_eq!(rt; zeros.saturating_add(ones), 300);
        changed = changed.saturating_add(ones);
    }
    assert_eq!(rt; records, changed);
    assert!(rt; changed > 1490);
    Ok(())
}
