//! How much room a segment has, and how many bytes its tenants wrote.
use crate::checks::{holds, same};
use judy_disk::{Room, Spent, TURN_ROOM};
use std::test::Fail;

/// The bytes from which on a segment is full.
const LIMIT: u64 = 10 * TURN_ROOM;

#[test]
fn a_turn_has_room_in_its_file_and_in_the_next(rt: HostRuntime) -> Result<(), Fail> {
    let none = Room { end: 0, made: 0 };
    let made = none.whole(LIMIT);
    same(&rt, made, 11 * TURN_ROOM);
    let rows = [
        (0, made, false, true),
        (9 * TURN_ROOM - 1, made, false, true),
        (9 * TURN_ROOM, made, false, false),
        (9 * TURN_ROOM, made, true, true),
        (LIMIT, made, true, true),
        (LIMIT + 1, made, true, false),
        (0, TURN_ROOM, false, true),
        (1, TURN_ROOM, true, false),
        (u64::MAX, u64::MAX, true, false),
    ];
    for row in rows.iter() {
        let room = Room {
            end: row.0,
            made: row.1,
        };
        same(&rt, room.is_enough(LIMIT, row.2), row.3);
    }
    Ok(())
}

#[test]
fn a_file_is_filled_in_pieces(rt: HostRuntime) -> Result<(), Fail> {
    let room = Room { end: 35, made: 35 };
    same(&rt, room.piece(40), 5);
    same(&rt, room.piece(35), 0);
    same(&rt, room.piece(u64::MAX), TURN_ROOM);
    let half = Room {
        end: LIMIT / 2,
        made: LIMIT,
    };
    same(&rt, half.is_half(LIMIT), true);
    same(&rt, room.is_half(LIMIT), false);
    same(&rt, half.after(LIMIT).made, LIMIT / 2 + LIMIT);
    Ok(())
}

#[test]
fn bytes_are_those_of_a_tenant_after_a_snapshot(rt: HostRuntime) -> Result<(), Fail> {
    let mut spent = Spent::new(rt.alloc());
    holds(
        &rt,
        spent.count(
            1,
            b"alice J1S a 1\nbob J1S a 1\nalice J1S a 22\n@ 35 x\n# 4 y\nnot whole",
        ),
    );
    same(
        &rt,
        (spent.of(b"alice"), spent.of(b"bob"), spent.of(b"al")),
        (29, 12, 0),
    );
    same(&rt, spent.of(b"@"), 0);
    holds(&rt, spent.count(2, b"alice J1S a 3\n"));
    same(&rt, spent.shares().len(), 3);
    same(&rt, spent.may_add(b"alice", Some(44)), true);
    same(&rt, spent.may_add(b"alice", Some(43)), false);
    same(&rt, spent.may_add(b"alice", None), true);
    spent.forget(1);
    same(&rt, (spent.of(b"alice"), spent.of(b"bob")), (14, 0));
    Ok(())
}
