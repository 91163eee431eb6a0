//! Connections that the operator closes.
use crate::many::theatre::{giving, limits, play, stage};
use judy_many::{Ending, Limits, Question};
use std::test::Fail;

// Three clients at once, with a control socket.
fn watched() -> Limits {
    Limits {
        status: true,
        ..limits(3, 3)
    }
}

// The connections of the tenant are closed after the replies of the round, and no others.
#[test]
fn those_of_a_tenant_are_closed(rt: HostRuntime) -> Result<(), Fail> {
    let alloc = rt.alloc();
    let parts = [
        giving(b"AUTH alice abc\n"),
        giving(b"AUTH bob hello\n"),
        giving(b"AUTH alice abc\nJ1S a 1\n"),
    ];
    let questions = [Question::Kick, Question::Kick];
    let mut stage = stage(alloc, &parts)?;
    stage.questions = &questions;
    stage.name = b"alice";
    let ending = play(alloc, &mut stage, watched())?;
    assert_eq!(rt; ending, Ending::Done);
    let asked = stage.asked();
    let head = b".a0a1a2r0r1r2w0w1w2*c0Kc2K-".as_slice();
    assert!(rt; asked.starts_with(head));
    assert_eq!(rt; stage.reported.as_slice(), b"OK 2\nOK 0\n".as_slice());
    Ok(())
}

// No tenant has the name.
#[test]
fn a_name_that_no_tenant_has_closes_nothing(rt: HostRuntime) -> Result<(), Fail> {
    let alloc = rt.alloc();
    let parts = [giving(b"AUTH alice abc\n")];
    let questions = [Question::Kick];
    let mut stage = stage(alloc, &parts)?;
    stage.questions = &questions;
    stage.name = b"carol";
    let limits = Limits {
        status: true,
        ..limits(1, 1)
    };
    let ending = play(alloc, &mut stage, limits)?;
    assert_eq!(rt; ending, Ending::Done);
    assert_eq!(rt; stage.reported.as_slice(), b"ERR TENANT\n".as_slice());
    Ok(())
}
