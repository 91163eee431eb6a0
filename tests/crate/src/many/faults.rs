//! Cut writes and faults, at each place.
use crate::many::theatre::{Part, giving, limits, play, stage};
use judy_many::Ending;
use judy_stream::Refusal;
use std::test::Fail;

const LINES: &[u8] = b"AUTH bob hello\nJ1S a 1\nJ1T a 1\nQUIT\n";

const TEXT: &[u8] = b"OK\n1\n1\nBYE\n";
// The same for one that comes later and finds the index there.
const LATER: &[u8] = b"OK\n0\n1\nBYE\n";

// Whatever byte a socket stops at, the rest of the answers follows, and the other client gets its own.
#[test]
fn writes_cut_at_each_byte(rt: HostRuntime) -> Result<(), Fail> {
    let alloc = rt.alloc();
    for place in 0..TEXT.len() {
        let cut = Part {
            refuses_at: Some(place),
            refusal: Refusal::TakesNothing,
            ..giving(LINES)
        };
        let parts = [cut, giving(b"J1T a 1\nQUIT\n")];
        let mut stage = stage(alloc, &parts)?;
        let ending = play(alloc, &mut stage, limits(2, 2))?;
        assert_eq!(rt; ending, Ending::Done);
        assert_eq!(rt; stage.scripts.len(), 2);
        assert_eq!(rt; stage.scripts[0].page.bytes(), TEXT, "cut at {place}");
        assert_eq!(rt;
            stage.scripts[1].page.bytes(),
            b"ERR AUTH\nBYE\n".as_slice()
        );
    }
    Ok(())
}

// A write that fails closes its own connection, which has the answers up to there.
#[test]
fn writes_that_fail_at_each_byte(rt: HostRuntime) -> Result<(), Fail> {
    let alloc = rt.alloc();
    for place in 0..LATER.len() {
        let broken = Part {
            refuses_at: Some(place),
            ..giving(LINES)
        };
        let parts = [giving(LINES), broken];
        let mut stage = stage(alloc, &parts)?;
        let ending = play(alloc, &mut stage, limits(2, 2))?;
        assert_eq!(rt; ending, Ending::Done);
        assert_eq!(rt; stage.scripts.len(), 2);
        assert_eq!(rt; stage.scripts[0].page.bytes(), TEXT);
        assert_eq!(rt; stage.scripts[1].page.bytes(), &LATER[..place]);
        assert!(rt; stage.asked().ends_with(b"c1F"), "at {place}");
    }
    Ok(())
}

// A read that fails closes its own connection. What came before is answered.
#[test]
fn reads_that_fail_at_each_byte(rt: HostRuntime) -> Result<(), Fail> {
    let alloc = rt.alloc();
    let texts: [(usize, &[u8]); 3] = [(14, b""), (22, b"OK\n"), (30, b"OK\n1\n")];
    for (place, text) in texts {
        let broken = Part {
            fails_at: Some(place),
            ..giving(LINES)
        };
        let parts = [broken, giving(LINES)];
        let mut stage = stage(alloc, &parts)?;
        let ending = play(alloc, &mut stage, limits(2, 2))?;
        assert_eq!(rt; ending, Ending::Done);
        assert_eq!(rt; stage.scripts.len(), 2);
        assert_eq!(rt; stage.scripts[0].page.bytes(), text, "fault at {place}");
        assert_eq!(rt; stage.scripts[1].page.bytes().len(), TEXT.len());
    }
    Ok(())
}

// With one slot one connection is served after another, also after one that failed.
#[test]
fn one_after_another(rt: HostRuntime) -> Result<(), Fail> {
    let alloc = rt.alloc();
    let broken = Part {
        fails_at: Some(0),
        ..giving(LINES)
    };
    let parts = [giving(LINES), broken, giving(b"J1T a 1\nhalf")];
    let mut stage = stage(alloc, &parts)?;
    let ending = play(alloc, &mut stage, limits(1, 3))?;
    assert_eq!(rt; ending, Ending::Done);
    assert_eq!(rt;
        stage.asked(),
        b".a0r0w0.w0.w0.w0c0Q.a1r1c1F.a2r2w2|r2c2E".as_slice()
    );
    Ok(())
}

// Where an allocation of the loop fails, a connection is served whole or closed with nothing written,
// and the server ends in order. One that fails before the loop begins fails the test.
#[test]
fn without_memory_for_a_client(rt: HostRuntime) -> Result<(), Fail> {
    let alloc = rt.alloc();
    let parts = [giving(b"J1T a 1\nQUIT\n"), giving(b"J1T a 1\nQUIT\n")];
    let mut stage = stage(alloc, &parts)?;
    let ending = play(alloc, &mut stage, limits(2, 2))?;
    if ending == Ending::Memory {
        return Ok(());
    }
    assert_eq!(rt; ending, Ending::Done);
    let text = b"ERR AUTH\nBYE\n".as_slice();
    let mut served = false;
    for script in &stage.scripts {
        let bytes = script.page.bytes();
        assert!(rt; bytes.is_empty() || bytes == text);
        if bytes == text {
            served = true;
        }
    }
    assert!(rt; served);
    Ok(())
}
