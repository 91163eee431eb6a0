//! Connections whose lines and bytes are mixed.
use crate::many::theatre::{Part, giving, limits, play, stage};
use judy_many::Ending;
use judy_stream::Refusal;
use std::test::Fail;

// Two connections of alice and two of bob, by turns of a few bytes: each speaker is the one of its own
// connection. The second of alice finds what the first has stored, and the quota full. One connection
// of bob takes nothing once, one ends in the middle of a line, one quits, and one fails.
#[test]
fn by_turns(rt: HostRuntime) -> Result<(), Fail> {
    let alloc = rt.alloc();
    let first = *b"AUTH alice abc\nJ1S a 5\nJ1S a 6\nUSED\nQUIT\nJ1S a 7\n";
    let second = *b"J1T a 5\nAUTH bob hello\nJ1T a 5\nJ1S a 9\nJ1C a 0 -1\nhalf";
    let third = *b"AUTH alice abc\nJ1T a 5\nJ1S a 8\nnothing\nQUIT\n";
    let fourth = *b"AUTH bob hello\nJ1S b 1\nJ1S b 2\n";
    let parts = [
        Part {
            step: 8,
            ..giving(&first)
        },
        Part {
            step: 5,
            refuses_at: Some(9),
            refusal: Refusal::TakesNothing,
            ..giving(&second)
        },
        Part {
            step: 15,
            ..giving(&third)
        },
        Part {
            fails_at: Some(23),
            ..giving(&fourth)
        },
    ];
    let order: [&[usize]; 15] = [
        &[0],
        &[1],
        &[0],
        &[1],
        &[3],
        &[0],
        &[0],
        &[1],
        &[1],
        &[0],
        &[2],
        &[1],
        &[0],
        &[3],
        &[2],
    ];
    let mut stage = stage(alloc, &parts)?;
    stage.order = &order;
    let ending = play(alloc, &mut stage, limits(4, 4))?;
    assert_eq!(rt; ending, Ending::Done);
    let wanted: [&[u8]; 4] = [
        b"OK\n1\n1\nQ 2 2 2 252\nBYE\n",
        b"ERR AUTH\nOK\n0\n1\nN 1\n",
        b"OK\n1\nFULL\nERR SYNTAX\nBYE\n",
        b"OK\n1\n",
    ];
    assert_eq!(rt; stage.scripts.len(), 4);
    for (script, text) in stage.scripts.iter().zip(wanted) {
        assert_eq!(rt; script.page.bytes(), text);
    }
    Ok(())
}

// A log-in of one connection is no other's, and fails for itself alone.
#[test]
fn a_log_in_is_the_connections_own(rt: HostRuntime) -> Result<(), Fail> {
    let alloc = rt.alloc();
    let parts = [
        giving(b"AUTH alice abc\nJ1S a 1\nQUIT\n"),
        giving(b"J1T a 1\nAUTH alice wrong\nJ1T a 1\nQUIT\n"),
    ];
    let mut stage = stage(alloc, &parts)?;
    let ending = play(alloc, &mut stage, limits(2, 2))?;
    assert_eq!(rt; ending, Ending::Done);
    assert_eq!(rt; stage.scripts.len(), 2);
    assert_eq!(rt; stage.scripts[0].page.bytes(), b"OK\n1\nBYE\n".as_slice());
    assert_eq!(rt;
        stage.scripts[1].page.bytes(),
        b"ERR AUTH\nERR AUTH\nERR AUTH\nBYE\n".as_slice()
    );
    Ok(())
}
