//! Directories of many names. Each request for memory may be refused once.
use crate::checks::{holds, holds_at, same, same_at};
use judy_arena::NoMemory;
use judy_directory::{Directory, Place, Spot};
use judy_model::{Kind, Name};
use judy_refs::Ref;
use std::alloc::Global;
use std::process::Abort;
use std::test::Fail;

/// A directory without a name. If memory is refused, a second try succeeds.
pub(crate) fn empty(alloc: Global) -> Result<Directory, NoMemory> {
    if let Ok(directory) = Directory::new(alloc, b"secret") {
        return Ok(directory);
    }
    Directory::new(alloc, b"secret")
}

/// The place of a name, which is then in the directory. If memory is refused, nothing has changed,
/// and a second try succeeds.
fn take(rt: &impl Abort, directory: &mut Directory, spot: &Spot) -> Result<Place, NoMemory> {
    let count = directory.count();
    if let Ok(place) = directory.place(spot) {
        return Ok(place);
    }
    same_at(rt, directory.count(), count, "names after a refusal");
    holds(rt, directory.find(spot).is_none());
    directory.place(spot)
}

/// Puts a place at a name. Returns the place before.
pub(crate) fn keep(
    rt: &impl Abort,
    directory: &mut Directory,
    spot: &Spot,
    place: Place,
) -> Result<Place, NoMemory> {
    let before = take(rt, directory, spot)?;
    directory.put(spot, place);
    Ok(before)
}

/// The place of a name, if it has one.
fn found(directory: &Directory, spot: &Spot) -> Option<Place> {
    directory.find(spot)
}

/// The place of the n-th array.
pub(crate) fn place(n: u64) -> Result<Place, Fail> {
    let root = Ref::read(4_294_967_296u64.wrapping_add(n)).ok_or("a reference")?;
    Ok(Place {
        root,
        entries: n.wrapping_add(1),
        pieces: n.wrapping_mul(2),
    })
}

/// The last digit of a number.
fn digit(n: u64) -> u8 {
    b'0' + (n % 10) as u8
}

/// The spot of the n-th name of a thousand.
fn spot(tenant: u8, kind: Kind, n: u64) -> Result<Spot, Fail> {
    let text = [b'n', digit(n / 100), digit(n / 10), digit(n)];
    let name = Name::read(&text).ok_or("a name")?;
    Ok(Spot::new(tenant, kind, name))
}

/// Gives the n-th of this many names the n-th place. They have none before.
fn keep_all(
    rt: &impl Abort,
    directory: &mut Directory,
    tenant: u8,
    kind: Kind,
    names: u64,
) -> Result<(), Fail> {
    for n in 0..names {
        let before = keep(rt, directory, &spot(tenant, kind, n)?, place(n)?)?;
        same_at(rt, before, Place::nothing(), ("name", n));
    }
    Ok(())
}

/// Checks whether each of this many names has its place, or none has one.
fn compare_all(
    rt: &impl Abort,
    directory: &Directory,
    tenant: u8,
    kind: Kind,
    names: u64,
    is_kept: bool,
) -> Result<(), Fail> {
    for n in 0..names {
        let want = if is_kept { Some(place(n)?) } else { None };
        let place = found(directory, &spot(tenant, kind, n)?);
        same_at(rt, place, want, ("name", n, "of", tenant));
    }
    Ok(())
}

/// Takes the place of each of this many names.
fn clear_all(
    rt: &impl Abort,
    directory: &mut Directory,
    tenant: u8,
    kind: Kind,
    names: u64,
) -> Result<(), Fail> {
    for n in 0..names {
        let spot = spot(tenant, kind, n)?;
        let before = keep(rt, directory, &spot, Place::nothing())?;
        same_at(rt, before, place(n)?, ("name", n));
    }
    Ok(())
}

#[test]
fn many_names_are_found_again(rt: HostRuntime) -> Result<(), Fail> {
    let mut directory = empty(rt.alloc())?;
    keep_all(&rt, &mut directory, 3, Kind::Long, 600)?;
    same(&rt, directory.count(), 600);
    compare_all(&rt, &directory, 3, Kind::Long, 600, true)?;
    clear_all(&rt, &mut directory, 3, Kind::Long, 600)?;
    same(&rt, directory.count(), 0);
    Ok(())
}

/// Names beside the seventh of sets of the first tenant: of another tenant or kind, or other names.
static OTHERS: [(u8, Kind, u64); 5] = [
    (1, Kind::One, 7),
    (0, Kind::Long, 7),
    (0, Kind::Str, 7),
    (0, Kind::Bytes, 7),
    (0, Kind::One, 8),
];

#[test]
fn tenants_and_kinds_have_their_own_names(rt: HostRuntime) -> Result<(), Fail> {
    let mut directory = empty(rt.alloc())?;
    let mine = spot(0, Kind::One, 7)?;
    keep(&rt, &mut directory, &mine, place(7)?)?;
    holds(&rt, found(&directory, &mine.copied()).is_some());
    for (tenant, kind, n) in &OTHERS {
        let other = spot(*tenant, *kind, *n)?;
        holds_at(&rt, found(&directory, &other).is_none(), (tenant, kind, n));
    }
    directory.forget(&mine);
    holds(&rt, found(&directory, &mine).is_none());
    Ok(())
}

/// A directory of 200 names of each of three owners.
fn of_three_owners(rt: &impl Abort, alloc: Global) -> Result<Directory, Fail> {
    let mut directory = empty(alloc)?;
    keep_all(rt, &mut directory, 63, Kind::Str, 200)?;
    keep_all(rt, &mut directory, 127, Kind::Bytes, 200)?;
    keep_all(rt, &mut directory, 127, Kind::Long, 200)?;
    same(rt, directory.count(), 600);
    Ok(directory)
}

#[test]
fn names_are_listed(rt: HostRuntime) -> Result<(), Fail> {
    holds(&rt, empty(rt.alloc())?.list().next().is_none());
    let directory = of_three_owners(&rt, rt.alloc())?;
    let mut names = directory.list();
    for n in 0..600 {
        let spot = names.next().ok_or("one more")?;
        holds_at(&rt, found(&directory, &spot).is_some(), ("name", n));
    }
    holds(&rt, names.next().is_none());
    Ok(())
}

#[test]
fn names_are_forgotten(rt: HostRuntime) -> Result<(), Fail> {
    let mut directory = of_three_owners(&rt, rt.alloc())?;
    let mut gone = [false; 128];
    directory.forget_gone(gone.as_slice());
    same(&rt, directory.count(), 600);
    gone[127] = true;
    directory.forget_gone(gone.as_slice());
    same(&rt, directory.count(), 200);
    compare_all(&rt, &directory, 63, Kind::Str, 200, true)?;
    compare_all(&rt, &directory, 127, Kind::Bytes, 200, false)?;
    compare_all(&rt, &directory, 127, Kind::Long, 200, false)
}
