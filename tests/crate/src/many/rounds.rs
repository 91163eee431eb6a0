//! The order of turns.
use crate::many::theatre::{Part, giving, limits, play, stage};
use judy_many::Ending;
use judy_stream::Refusal;
use std::test::Fail;

// Clients have their turns in the order in which they became ready. All of a round read before any of
// them writes. Who comes has a turn at once; the second wait says which of them are ready first then.
#[test]
fn turns_go_by_readiness_in_two_halves(rt: HostRuntime) -> Result<(), Fail> {
    let alloc = rt.alloc();
    let lines = *b"J1T a 1\nQUIT\n";
    let part = Part {
        step: 8,
        ..giving(&lines)
    };
    let parts = [part, part, part];
    let order: [&[usize]; 2] = [&[], &[2, 0, 1]];
    let mut stage = stage(alloc, &parts)?;
    stage.order = &order;
    let ending = play(alloc, &mut stage, limits(3, 3))?;
    assert_eq!(rt; ending, Ending::Done);
    assert_eq!(rt;
        stage.asked(),
        b".a0a1a2r0r1r2w0w1w2|r2r0r1w2c2Qw0c0Qw1c1Q".as_slice()
    );
    Ok(())
}

// Whether the acts begin with these.
fn begin_with(acts: &[u8], first: &[u8]) -> bool {
    acts.starts_with(first)
}

// The first client has many lines, and each of its reads fills the buffer. It has one turn in each
// round, as the two others have, which send a line a read.
#[test]
fn nobody_has_a_second_turn_first(rt: HostRuntime) -> Result<(), Fail> {
    let alloc = rt.alloc();
    let many = [b'\n'; 5 * 4096];
    let three = *b"J1T a 1\nJ1T a 2\nJ1T a 3\n";
    let parts = [
        giving(&many),
        Part {
            step: 8,
            ..giving(&three)
        },
        Part {
            step: 8,
            ..giving(&three)
        },
    ];
    let order: [&[usize]; 4] = [&[], &[0, 1, 2], &[2, 1], &[1, 2]];
    let mut stage = stage(alloc, &parts)?;
    stage.order = &order;
    let ending = play(alloc, &mut stage, limits(3, 3))?;
    assert_eq!(rt; ending, Ending::Done);
    assert!(rt;
        begin_with(
            stage.asked(),
            b".a0a1a2r0r1r2w0w1w2.r1r2w0w1w2.r2r1w0w2w1.r1c1Er2c2E"
        )
    );
    Ok(())
}

// The answers to what one read brings do not fit. The rest of the lines wait until all is written, and
// each is run once.
#[test]
fn a_full_output_waits(rt: HostRuntime) -> Result<(), Fail> {
    let alloc = rt.alloc();
    let lines = [b'\n'; 2000];
    let parts = [
        Part {
            refuses_at: Some(5000),
            refusal: Refusal::TakesNothing,
            ..giving(&lines)
        },
        giving(b"J1T a 1\nQUIT\n"),
    ];
    let mut stage = stage(alloc, &parts)?;
    let ending = play(alloc, &mut stage, limits(2, 2))?;
    assert_eq!(rt; ending, Ending::Done);
    assert_eq!(rt; stage.scripts.len(), 2);
    assert_eq!(rt; stage.scripts[0].page.bytes().len(), 2000 * 11);
    assert_eq!(rt;
        stage.scripts[1].page.bytes(),
        b"ERR AUTH\nBYE\n".as_slice()
    );
    assert_eq!(rt;
        stage.asked(),
        b".a0a1r0r1w0w1c1Q|w0|w0.w0.r0c0E".as_slice()
    );
    Ok(())
}

// A client whose answers wait is not read, whatever it has sent.
#[test]
fn a_blocked_client_is_not_read(rt: HostRuntime) -> Result<(), Fail> {
    let alloc = rt.alloc();
    let lines = *b"J1T a 1\nJ1T a 2\n";
    let parts = [Part {
        step: 8,
        refuses_at: Some(0),
        refusal: Refusal::TakesNothing,
        ..giving(&lines)
    }];
    let order: [&[usize]; 2] = [&[], &[0]];
    let mut stage = stage(alloc, &parts)?;
    stage.order = &order;
    let ending = play(alloc, &mut stage, limits(1, 1))?;
    assert_eq!(rt; ending, Ending::Done);
    assert_eq!(rt; stage.asked(), b".a0r0w0|w0.r0w0|r0c0E".as_slice());
    assert_eq!(rt; stage.scripts.len(), 1);
    assert_eq!(rt;
        stage.scripts[0].page.bytes(),
        b"ERR AUTH\nERR AUTH\n".as_slice()
    );
    Ok(())
}

// With one slot one line at a time is run, and its reply is written before the next line is run.
#[test]
fn one_client_is_answered_line_by_line(rt: HostRuntime) -> Result<(), Fail> {
    let alloc = rt.alloc();
    let parts = [giving(b"J1T a 1\nJ1T a 2\nJ1T a 3\nhalf")];
    let mut stage = stage(alloc, &parts)?;
    let ending = play(alloc, &mut stage, limits(1, 1))?;
    assert_eq!(rt; ending, Ending::Done);
    assert_eq!(rt; stage.asked(), b".a0r0w0.w0.w0.r0c0E".as_slice());
    Ok(())
}
