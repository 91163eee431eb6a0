//! The tape and the page at every setting of a short text, compared with a computation byte by
//! byte.
use crate::checks::{holds, same};
use judy_stream::{Page, Pull, Push, Refusal, Sink, Source, Tape};
use std::process::Abort;

const TEXT: &[u8] = b"abcd";

// What a pull gives, computed one byte at a time: it stops before a place where it must.
fn plain_pull(
    at: usize,
    cuts: &[usize],
    step: usize,
    fails_at: Option<usize>,
    room: usize,
) -> Pull {
    if fails_at == Some(at) {
        return Pull::Fault;
    }
    let walked = (at..TEXT.len())
        .take(room)
        .take(step)
        .take_while(|place| { *place == at || !cuts.contains(place) && fails_at != Some(*place) })
        .count();
    if walked == 0 {
        Pull::End
    } else {
        Pull::Bytes(walked)
    }
}

fn pulls_as_told(
    rt: &impl Abort,
    cuts: &[usize],
    step: usize,
    fails_at: Option<usize>,
    room: usize,
) {
    let mut tape = Tape::new(TEXT, cuts, step, fails_at);
    let mut at = 0usize;
    let mut fails_at = fails_at;
    // At most 4 pulls give bytes and one fails, and at least 2 more find the tape at its end.
    for _ in 0..7u8 {
        let mut buf = [b'-'; 5];
        let answer = tape.pull(&mut buf[..room]);
        same(rt, answer, plain_pull(at, cuts, step, fails_at, room));
        match answer {
            Pull::Bytes(n) => {
                let next = at.saturating_add(n);
                same(rt, buf.get(..n), TEXT.get(at..next));
                at = next;
            }
            Pull::End => {}
            Pull::Fault => fails_at = None,
        }
    }
}

#[test]
fn tape_at_every_cut_step_and_fault(rt: HostRuntime) {
    for cut in 0..6usize {
        for other_cut in 0..6usize {
            for step in 1..6usize {
                for room in 1..6usize {
                    pulls_as_told(&rt, &[cut, other_cut], step, None, room);
                    for place in 0..6usize {
                        pulls_as_told(&rt, &[cut, other_cut], step, Some(place), room);
                    }
                }
            }
        }
    }
}

#[test]
fn tape_by_hand(rt: HostRuntime) {
    let mut tape = Tape::new(b"abcdefgh", &[5, 2], 4, Some(7));
    let mut buf = [0u8; 3];
    for (answer, want) in [
        (Pull::Bytes(2), b"ab\0"),
        (Pull::Bytes(3), b"cde"),
        (Pull::Bytes(2), b"fge"),
        (Pull::Fault, b"fge"),
        (Pull::Bytes(1), b"hge"),
        (Pull::End, b"hge"),
        (Pull::End, b"hge"),
    ] {
        same(&rt, tape.pull(&mut buf), answer);
        same(&rt, buf, *want);
    }
    let mut empty = Tape::new(b"", &[], 4, None);
    same(&rt, empty.pull(&mut buf), Pull::End);
    same(&rt, buf, *b"hge");
}

// Where a page fails: at a push after this many bytes, or at a flush.
#[derive(Clone, Copy)]
struct Fails {
    push: Option<usize>,
    flush: Option<usize>,
}

fn pushes_as_told(rt: &impl Abort, limit: usize, refusal: Refusal, fails: Fails, len: usize) {
    const PUSHED: &[u8; 5] = b"vwxyz";
    let mut page: Page<4> = Page::new(limit, refusal, fails.push, fails.flush);
    let refused = match refusal {
        Refusal::TakesNothing => Push::Took(0),
        Refusal::Fails => Push::Fault,
    };
    let mut fails = fails;
    let mut held = 0usize;
    for _ in 0..7u8 {
        let answer = page.push(&PUSHED[..len]);
        // A pushed byte is taken if its place in the page is below the limit and below the fault.
        let fits = (held..limit)
            .take(len)
            .take_while(|place| { fails.push != Some(*place) || *place == held })
            .count();
        if fails.push == Some(held) || fits == 0 {
            same(rt, answer, refused);
            if fails.push == Some(held) {
                fails.push = None;
            }
        } else {
            same(rt, answer, Push::Took(fits));
            same(rt, page.bytes().get(held..), PUSHED.get(..fits));
            held = held.saturating_add(fits);
        }
        same(rt, page.bytes().len(), held);
        let flushes = fails.flush != Some(held);
        same(rt, page.flush(), flushes);
        if !flushes {
            fails.flush = None;
        }
    }
}

#[test]
fn page_at_every_limit_length_and_fault(rt: HostRuntime) {
    for limit in 0..5usize {
        for len in 1..6usize {
            for refusal in [Refusal::TakesNothing, Refusal::Fails] {
                for place in 0..5usize {
                    for (push, flush) in [
                        (None, None),
                        (Some(place), None),
                        (None, Some(place)),
                        (Some(place), Some(place)),
                    ] {
                        pushes_as_told(&rt, limit, refusal, Fails { push, flush }, len);
                    }
                }
            }
        }
    }
}

#[test]
fn page_by_hand(rt: HostRuntime) {
    let mut page: Page<4> = Page::new(3, Refusal::TakesNothing, Some(1), Some(3));
    same(&rt, page.bytes(), b"".as_slice());
    same(&rt, page.push(b"ab"), Push::Took(1));
    same(&rt, page.push(b"b"), Push::Took(0));
    same(&rt, page.push(b"bcd"), Push::Took(2));
    holds(&rt, !page.flush());
    holds(&rt, page.flush());
    same(&rt, page.push(b"d"), Push::Took(0));
    same(&rt, page.bytes(), b"abc".as_slice());
    let mut full: Page<2> = Page::new(2, Refusal::Fails, None, None);
    same(&rt, full.push(b"abc"), Push::Took(2));
    same(&rt, full.push(b"c"), Push::Fault);
    holds(&rt, full.flush());
    same(&rt, full.bytes(), b"ab".as_slice());
}
