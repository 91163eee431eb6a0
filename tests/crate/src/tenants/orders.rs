//! The names of a directory in order, compared with sorted numbers. Each request for memory may be
//! refused once.
use super::dice::Dice;
use super::directories::{empty, keep, place};
use crate::checks::{holds_at, same, same_at};
use judy_directory::{Directory, Place, Spot};
use judy_model::{Kind, Name};
use std::alloc::Global;
use std::process::Abort;
use std::test::Fail;

/// How many names there are at most.
const MANY: usize = 300;

/// The tenants to draw from, and the bytes of names.
static TENANTS: [u8; 4] = [0, 1, 63, 127];

static BYTES: [u8; 3] = [b'a', b'b', 255];

/// Some names as numbers, which rise: a byte each for the tenant and the kind, then the bytes of the
/// name, then zeros. The n-th has the n-th place, if it is there.
#[derive(Drop)]
struct Row {
    keys: [u64; MANY],
    there: [bool; MANY],
}

/// A random name of 1 to 4 bytes.
fn drawn(dice: &mut Dice) -> u64 {
    let tenant = TENANTS[dice.roll(4) as usize] as u64;
    let mut key = tenant << 40 | dice.roll(4) << 32;
    for n in 0..dice.roll(4) + 1 {
        let byte = BYTES[dice.roll(3) as usize] as u64;
        key |= byte << (24 - 8 * n);
    }
    key
}

/// The spot of a name that is a number.
fn spot(key: u64) -> Spot {
    let bytes = key.to_be_bytes();
    let mut end = 4;
    while end < 8 && bytes[end] != 0 {
        end += 1;
    }
    Spot::new(
        bytes[2],
        Kind::with(bytes[3] as u16),
        Name::of(&bytes[4..end]),
    )
}

impl Row {
    /// Random names. Those that come twice are there once.
    fn new(dice: &mut Dice) -> Row {
        let mut keys = [0; MANY];
        for key in keys.as_mut_slice() {
            *key = drawn(dice);
        }
        keys.sort_unstable();
        let mut there = [true; MANY];
        for n in 1..MANY {
            there[n] = keys[n] != keys[n - 1];
        }
        Row { keys, there }
    }

    /// The number of names.
    fn count(&self) -> usize {
        let mut count = 0;
        for there in self.there.as_slice() {
            count += *there as usize;
        }
        count
    }

    /// The place in the row of the least name behind this one, or from this one on.
    fn next(&self, key: u64, itself: bool) -> Option<usize> {
        for n in 0..MANY {
            if self.there[n] && (self.keys[n] > key || itself && self.keys[n] == key) {
                return Some(n);
            }
        }
        None
    }
}

/// A directory of the names of a row. They enter it in another order.
fn filled(rt: &impl Abort, row: &Row, alloc: Global) -> Result<Directory, Fail> {
    let mut directory = empty(alloc)?;
    for i in 0..MANY {
        let n = i * 7 % MANY;
        if row.there[n] {
            let before = keep(rt, &mut directory, &spot(row.keys[n]), place(n as u64)?)?;
            same_at(rt, before, Place::nothing(), ("name", n));
        }
    }
    same(rt, directory.count(), row.count());
    Ok(directory)
}

/// Checks the name behind this one, or from this one on.
fn compare_next(
    rt: &impl Abort,
    directory: &Directory,
    row: &Row,
    key: u64,
    itself: bool,
) -> Result<(), Fail> {
    let want = row.next(key, itself);
    let Some((found, there)) = directory.next(&spot(key), itself) else {
        same_at(rt, want, None, ("behind", key, itself));
        return Ok(());
    };
    let n = want.ok_or("no more names")?;
    holds_at(rt, found == spot(row.keys[n]), ("behind", key, itself));
    same_at(rt, there, place(n as u64)?, ("place", n));
    Ok(())
}

/// Checks the names behind all names of the row, those included that are not there, and behind some
/// others.
fn compare_all(
    rt: &impl Abort,
    directory: &Directory,
    row: &Row,
    dice: &mut Dice,
) -> Result<(), Fail> {
    for key in row.keys.as_slice() {
        compare_next(rt, directory, row, *key, true)?;
        compare_next(rt, directory, row, *key, false)?;
        compare_next(rt, directory, row, drawn(dice), dice.roll(2) == 0)?;
    }
    for tenant in 0..128u64 {
        compare_next(rt, directory, row, tenant << 40, true)?;
    }
    Ok(())
}

#[test]
fn names_follow_in_order(rt: HostRuntime) -> Result<(), Fail> {
    let mut dice = Dice::new(25);
    let row = Row::new(&mut dice);
    let directory = filled(&rt, &row, rt.alloc())?;
    compare_all(&rt, &directory, &row, &mut dice)
}

#[test]
fn forgotten_names_follow_no_name(rt: HostRuntime) -> Result<(), Fail> {
    let mut dice = Dice::new(26);
    let mut row = Row::new(&mut dice);
    let mut directory = filled(&rt, &row, rt.alloc())?;
    for n in 0..MANY {
        if row.there[n] && dice.roll(2) == 0 {
            directory.forget(&spot(row.keys[n]));
            row.there[n] = false;
        }
    }
    same(&rt, directory.count(), row.count());
    compare_all(&rt, &directory, &row, &mut dice)
}

#[test]
fn names_of_gone_tenants_follow_no_name(rt: HostRuntime) -> Result<(), Fail> {
    let mut dice = Dice::new(27);
    let mut row = Row::new(&mut dice);
    let mut directory = filled(&rt, &row, rt.alloc())?;
    let mut gone = [false; 128];
    gone[1] = true;
    gone[127] = true;
    directory.forget_gone(gone.as_slice());
    for n in 0..MANY {
        if gone[(row.keys[n] >> 40) as usize] {
            row.there[n] = false;
        }
    }
    same(&rt, directory.count(), row.count());
    compare_all(&rt, &directory, &row, &mut dice)
}
