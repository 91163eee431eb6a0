//! Shares: how many clients of one tenant are heard in a round, and in which order.
use crate::many::theatre::{Part, giving, limits, play, stage};
use judy_many::{Ending, Limits};
use std::test::Fail;

// This number of clients, of which a tenant has this share of a round.
fn shared(clients: u32, share: u32) -> Limits {
    Limits {
        share,
        ..limits(clients, clients)
    }
}

// Five connections of alice and one of bob, each of which gives a line a read, with a share of two. First
// nobody is logged in on any, so that they are one tenant. Then bob has a turn in each round, and alice's
// connections have theirs two by two, those first that were passed over. Who is passed over is not read and
// not written, and stays ready, though the wait does not tell of it again.
#[test]
fn a_tenant_has_its_share_of_a_round(rt: HostRuntime) -> Result<(), Fail> {
    let alloc = rt.alloc();
    let alice = *b"AUTH alice abc\nJ1T abcdefgh 1\nJ1T abcdefgh 1\nJ1T abcdefgh 1\n";
    let bob = *b"AUTH bob hello\nJ1T abcdefgh 1\nJ1T abcdefgh 1\nJ1T abcdefgh 1\n";
    let of_alice = Part {
        step: 15,
        ..giving(&alice)
    };
    let of_bob = Part {
        step: 15,
        ..giving(&bob)
    };
    let parts = [of_alice, of_alice, of_alice, of_alice, of_alice, of_bob];
    let mut stage = stage(alloc, &parts)?;
    let ending = play(alloc, &mut stage, shared(6, 2))?;
    assert_eq!(rt; ending, Ending::Done);
    assert!(rt;
        stage.asked().starts_with(
            b".a0a1a2a3a4a5r0r1w0w1.r2r3r0r1w2w3w0w1.r4r5r0r1w4w5w0w1.r2r3r5w2w3w5.r0r1r5w0w1w5.r4r2r5w4w2w5"
        )
    );
    for script in stage.scripts.iter() {
        assert_eq!(rt; script.page.bytes(), b"OK\n0\n0\n0\n".as_slice());
    }
    Ok(())
}

// Whether three connections of alice, with many lines each, have their turns in this order.
fn has_order(rt: HostRuntime, share: u32, order: &[u8]) -> Result<bool, Fail> {
    let alloc = rt.alloc();
    let mut many = [b'\n'; 4096];
    many[..15].copy_from_slice(b"AUTH alice abc\n");
    let parts = [giving(&many), giving(&many), giving(&many)];
    let waits: [&[usize]; 64] = [&[]; 64];
    let mut stage = stage(alloc, &parts)?;
    stage.order = &waits;
    let ending = play(alloc, &mut stage, shared(3, share))?;
    Ok(ending == Ending::Done && stage.asked().starts_with(order))
}

// With a share of one they have their turns one after another, and no wait tells of them.
#[test]
fn connections_of_a_tenant_take_turns(rt: HostRuntime) -> Result<(), Fail> {
    let order = b".a0a1a2r0w0.r1w1w0.r2w2w1.w0.w2.w1.w0.w2.w1.";
    assert!(rt; has_order(rt, 1, order)?);
    Ok(())
}

// With a share of three all three have a turn in each round.
#[test]
fn a_share_of_all_passes_over_none(rt: HostRuntime) -> Result<(), Fail> {
    let order = b".a0a1a2r0r1r2w0w1w2.w0w1w2.w0w1w2.";
    assert!(rt; has_order(rt, 3, order)?);
    Ok(())
}
