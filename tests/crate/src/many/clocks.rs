//! Limits of time, and accepts that fail.
use crate::many::stage::Offer;
use crate::many::theatre::{Part, giving, limits, play, stage};
use judy_many::{Ending, Limits};
use std::test::Fail;

// A client that sends nothing for 5 seconds is closed; one that sends bytes is not, though it ends no
// line.
#[test]
fn a_silent_client_is_closed(rt: HostRuntime) -> Result<(), Fail> {
    let alloc = rt.alloc();
    let (line, letters) = (*b"J1T a 1\nhalf", *b"long lines");
    let parts = [
        Part {
            reads: 1,
            ..giving(&line)
        },
        Part {
            step: 1,
            reads: 8,
            ..giving(&letters)
        },
    ];
    let order: [&[usize]; 9] = [&[], &[0, 1], &[1], &[1], &[1], &[1], &[1], &[1], &[]];
    let times = [
        Some(10),
        Some(10),
        Some(11),
        Some(12),
        Some(13),
        Some(14),
        Some(15),
        Some(16),
        Some(21),
    ];
    let mut stage = stage(alloc, &parts)?;
    stage.order = &order;
    stage.times = &times;
    let limits = Limits {
        idle: Some(5),
        ..limits(2, 2)
    };
    let ending = play(alloc, &mut stage, limits)?;
    assert_eq!(rt; ending, Ending::Done);
    assert_eq!(rt;
        stage.asked(),
        b".a0a1r0r1w0:r0r1:r1:r1:r1:r1:r1c0I:r1:c1I".as_slice()
    );
    Ok(())
}

// A client on which nobody has logged in after 3 seconds is closed, though it sends lines; one on which
// somebody has is not.
#[test]
fn a_client_without_a_log_in_is_closed(rt: HostRuntime) -> Result<(), Fail> {
    let alloc = rt.alloc();
    let (call, log_in) = (*b"J1T a 1\n", *b"AUTH alice abc\n");
    let parts = [
        Part {
            reads: 1,
            ..giving(&call)
        },
        Part {
            reads: 1,
            ..giving(&log_in)
        },
    ];
    let order: [&[usize]; 4] = [&[], &[0, 1], &[], &[]];
    let times = [Some(10), Some(10), Some(13), Some(20)];
    let mut stage = stage(alloc, &parts)?;
    stage.order = &order;
    stage.times = &times;
    let limits = Limits {
        login: Some(3),
        idle: Some(8),
        ..limits(2, 2)
    };
    let ending = play(alloc, &mut stage, limits)?;
    assert_eq!(rt; ending, Ending::Done);
    assert_eq!(rt; stage.asked(), b".a0a1r0r1w0w1:r0r1:c0L:c1I".as_slice());
    Ok(())
}

// A connection lasts 3 seconds, however much it sends.
#[test]
fn a_long_connection_is_closed(rt: HostRuntime) -> Result<(), Fail> {
    let alloc = rt.alloc();
    let busy = Part {
        step: 1,
        ..giving(&[b'\n'; 100])
    };
    let times = [Some(7), Some(8), Some(9), Some(10)];
    let mut stage = stage(alloc, &[busy])?;
    stage.times = &times;
    let limits = Limits {
        turn: Some(3),
        ..limits(1, 1)
    };
    let ending = play(alloc, &mut stage, limits)?;
    assert_eq!(rt; ending, Ending::Done);
    assert_eq!(rt; stage.asked(), b".a0r0w0:r0w0:r0w0:r0w0c0O".as_slice());
    Ok(())
}

// Where the clock fails, each limit that was asked for has passed.
#[test]
fn a_clock_that_fails(rt: HostRuntime) -> Result<(), Fail> {
    let alloc = rt.alloc();
    let times = [Some(1), None];
    let silent = Part {
        reads: 1,
        ..giving(b"J1T a 1\n")
    };
    let mut stage = stage(alloc, &[silent])?;
    stage.times = &times;
    let limits = Limits {
        idle: Some(1000),
        ..limits(1, 1)
    };
    let ending = play(alloc, &mut stage, limits)?;
    assert_eq!(rt; ending, Ending::Done);
    assert_eq!(rt; stage.asked(), b".a0r0w0:r0c0I".as_slice());
    Ok(())
}

// After an accept that failed the next one follows when a connection has ended.
#[test]
fn accepts_again_after_a_close(rt: HostRuntime) -> Result<(), Fail> {
    let alloc = rt.alloc();
    let offers = [Offer::Next, Offer::Later];
    let times = [Some(100)];
    let mut stage = stage(alloc, &[giving(b"QUIT\n"), giving(b"QUIT\n")])?;
    stage.offers = &offers;
    stage.times = &times;
    let ending = play(alloc, &mut stage, limits(2, 2))?;
    assert_eq!(rt; ending, Ending::Done);
    assert_eq!(rt; stage.asked(), b".a0xr0w0c0Q.a1r1w1c1Q".as_slice());
    Ok(())
}

// Or a second later.
#[test]
fn accepts_again_after_a_second(rt: HostRuntime) -> Result<(), Fail> {
    let alloc = rt.alloc();
    let offers = [Offer::Later, Offer::Later];
    let times = [Some(50), Some(50), Some(50), Some(51)];
    let mut stage = stage(alloc, &[giving(b"QUIT\n")])?;
    stage.offers = &offers;
    stage.times = &times;
    let ending = play(alloc, &mut stage, limits(2, 1))?;
    assert_eq!(rt; ending, Ending::Done);
    assert_eq!(rt; stage.asked(), b".x:x:::a0r0w0c0Q".as_slice());
    Ok(())
}

// A listener that is broken ends the server.
#[test]
fn a_broken_listener(rt: HostRuntime) -> Result<(), Fail> {
    let alloc = rt.alloc();
    let offers = [Offer::Next, Offer::Fault];
    let mut stage = stage(alloc, &[giving(b"QUIT\n")])?;
    stage.offers = &offers;
    let ending = play(alloc, &mut stage, limits(2, 2))?;
    assert_eq!(rt; ending, Ending::Socket);
    Ok(())
}
