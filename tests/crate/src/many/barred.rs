//! A journal that does not take the records of a tenant: its lines that would change arrays are refused.
use crate::many::stage::Stage;
use crate::many::theatre::{Part, giving, limits, play, play_with, stage};
use judy_many::{Ending, Limits, Question, Sync};
use judy_protocol::cut_line;
use std::alloc::Global;
use std::test::Fail;

// As many connections, two slots at least, and a journal that is never synced.
fn journaled(clients: u32) -> Limits {
    Limits {
        journal: Some(Sync::Never),
        ..limits(clients.max(2), clients)
    }
}

// Plays connections with a journal that does not take alice's records for this number of turns.
fn play_full(alloc: Global, stage: &mut Stage<'_>, refusals: usize) -> Result<Ending, Fail> {
    let clients = stage.scripts.len().min(9) as u32;
    stage.full = b"alice";
    stage.refusals = refusals;
    play_with(alloc, stage, journaled(clients), 0)
}

// What a connection that gives these lines at once gets, while alice's records are not taken.
fn differs(alloc: Global, lines: &[u8], wanted: &[u8]) -> Result<bool, Fail> {
    let parts = [giving(lines)];
    let mut stage = stage(alloc, &parts)?;
    let ending = play_full(alloc, &mut stage, usize::MAX)?;
    Ok(
        ending != Ending::Done
            || stage.scripts.len() != 1
            || stage.scripts[0].page.bytes() != wanted,
    )
}

// Only alice's changes are refused: her reads, and all lines of bob, are answered as ever. Nothing is recorded
// of a line that is refused.
#[test]
fn only_one_tenant_is_refused(rt: HostRuntime) -> Result<(), Fail> {
    let alloc = rt.alloc();
    let parts = [
        giving(b"AUTH alice abc\nJ1S a 1\nJ1T a 1\nUSED\nPING\nJ1U a 1\nQUIT\n"),
        giving(b"AUTH bob hello\nJ1S a 1\nJ1T a 1\nQUIT\n"),
    ];
    let mut stage = stage(alloc, &parts)?;
    let ending = play_full(alloc, &mut stage, usize::MAX)?;
    assert_eq!(rt; ending, Ending::Done);
    assert_eq!(rt; stage.asked(), b".a0a1r0r1w0w1.n0y1kw0c0Qw1c1Q".as_slice());
    assert_eq!(rt; stage.scripts.len(), 2);
    assert_eq!(rt;
        stage.scripts[0].page.bytes(),
        b"OK\nERR JOURNAL\n0\nQ 0 2 0 252\nOK\nERR JOURNAL\nBYE\n".as_slice()
    );
    assert_eq!(rt;
        stage.scripts[1].page.bytes(),
        b"OK\n1\n1\nBYE\n".as_slice()
    );
    assert!(rt; stage.journal.as_slice().starts_with(b"bob J1S a 1\n"));
    Ok(())
}

// Once the journal takes records again, the same line is run.
#[test]
fn lines_are_run_again(rt: HostRuntime) -> Result<(), Fail> {
    let alloc = rt.alloc();
    let lines = *b"AUTH alice abc\nJ1S a 1\nJ1S a 1\nQUIT\n";
    let parts = [Part {
        step: 23,
        ..giving(&lines)
    }];
    let mut stage = stage(alloc, &parts)?;
    let ending = play_full(alloc, &mut stage, 1)?;
    assert_eq!(rt; ending, Ending::Done);
    assert_eq!(rt; stage.asked(), b".a0r0w0.n0w0.r0y0kw0c0Q".as_slice());
    assert_eq!(rt; stage.scripts.len(), 1);
    assert_eq!(rt;
        stage.scripts[0].page.bytes(),
        b"OK\nERR JOURNAL\n1\nBYE\n".as_slice()
    );
    Ok(())
}

// A log-in ends the turn: what the journal says of one tenant holds of no line of another.
#[test]
fn a_log_in_asks_anew(rt: HostRuntime) -> Result<(), Fail> {
    let alloc = rt.alloc();
    let lines =
        b"AUTH bob hello\nJ1S a 1\nAUTH alice abc\nJ1S a 2\nAUTH alice wrong\nJ1S a 3\nAUTH bob hello\nJ1U a 1\nQUIT\n";
    let wanted = b"OK\n1\nOK\nERR JOURNAL\nERR AUTH\nERR AUTH\nOK\n1\nBYE\n";
    assert!(rt; !differs(alloc, lines, wanted)?);
    Ok(())
}

// The refusal comes after those of a line that makes no call, and before those of the call.
#[test]
fn the_order_of_refusals(rt: HostRuntime) -> Result<(), Fail> {
    let alloc = rt.alloc();
    let lines =
        b"J1S a 1\nAUTH alice look\nJ1S a 1\nJ1S a\nAUTH alice abc\nJ1S a 1\nJHSI h x 1\nnonsense\nQUIT\n";
    let wanted =
        b"ERR AUTH\nOK\nERR JOURNAL\nERR SYNTAX\nOK\nERR JOURNAL\nERR JOURNAL\nERR SYNTAX\nBYE\n";
    assert!(rt; !differs(alloc, lines, wanted)?);
    Ok(())
}

// Without a journal nobody is asked, and nothing is refused.
#[test]
fn without_a_journal_nothing_is_asked(rt: HostRuntime) -> Result<(), Fail> {
    let alloc = rt.alloc();
    let parts = [giving(b"AUTH alice abc\nJ1S a 1\nQUIT\n")];
    let mut stage = stage(alloc, &parts)?;
    stage.full = b"alice";
    let ending = play(alloc, &mut stage, limits(2, 1))?;
    assert_eq!(rt; ending, Ending::Done);
    assert_eq!(rt; stage.asked(), b".a0r0w0c0Q".as_slice());
    assert_eq!(rt; stage.scripts.len(), 1);
    assert_eq!(rt; stage.scripts[0].page.bytes(), b"OK\n1\nBYE\n".as_slice());
    Ok(())
}

// Whether a text has this line.
fn has_line(text: &[u8], wanted: &[u8]) -> bool {
    let mut rest = text;
    for _line in 0..text.len() {
        let Some((line, after)) = cut_line(rest) else {
            return false;
        };
        if line == wanted {
            return true;
        }
        rest = after;
    }
    false
}

// The lines that are refused are counted as a kind of their own.
#[test]
fn refusals_are_counted(rt: HostRuntime) -> Result<(), Fail> {
    let alloc = rt.alloc();
    let parts = [giving(b"AUTH alice abc\nJ1S a 1\nJ1U a 1\nJ1T a 1\nQUIT\n")];
    let questions = [Question::Nothing, Question::Status];
    let mut stage = stage(alloc, &parts)?;
    stage.questions = &questions;
    stage.full = b"alice";
    let limits = Limits {
        status: true,
        ..journaled(1)
    };
    let ending = play_with(alloc, &mut stage, limits, 0)?;
    assert_eq!(rt; ending, Ending::Done);
    let told = stage.reported.as_slice();
    assert!(rt; has_line(told, b"judyd_replies_total{kind=\"journal\"} 2"));
    assert!(rt; has_line(told, b"judyd_replies_total{kind=\"ok\"} 3"));
    assert!(rt; has_line(told, b"judyd_replies_total{kind=\"frozen\"} 0"));
    Ok(())
}
