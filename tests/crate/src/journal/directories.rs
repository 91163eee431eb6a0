//! Names of files, and what a directory's files make.
use crate::checks::{holds, same};
use judy_disk::{DiskFault, Lack, Manifest, Named, Place, arrange, read_name};
use std::io;
use std::test::Fail;

#[test]
fn names_are_read(rt: HostRuntime) -> Result<(), Fail> {
    let rows = [
        ("000000000001.journal", Named::Segment(1)),
        ("999999999999.journal", Named::Segment(999_999_999_999)),
        ("000000000007.snapshot", Named::Snapshot(7)),
        ("lock", Named::Passed),
        ("compact.lock", Named::Passed),
        ("read.lock", Named::Passed),
        ("start.lock", Named::Passed),
        ("snapshot.new", Named::Passed),
        ("manifest", Named::Passed),
        ("manifest.new", Named::Passed),
        ("manifest.lock", Named::Passed),
        ("manifests", Named::Other),
        ("000000000007.journal.new", Named::Passed),
        ("000000000007.torn", Named::Torn(7)),
        ("000000000007.torn.new", Named::Passed),
        ("000000000007.journal.torn", Named::Passed),
        ("000000000000.torn", Named::Passed),
        ("000000000007.torn.old", Named::Other),
        ("000000000000.journal", Named::Other),
        ("1.journal", Named::Other),
        ("+00000000001.journal", Named::Other),
        ("0000000000001.journal", Named::Other),
        ("00000000000x.journal", Named::Other),
        ("000000000001.JOURNAL", Named::Other),
        (".journal", Named::Passed),
        (".", Named::Passed),
        (".000000000001.journal.swp", Named::Passed),
        ("lost+found", Named::Passed),
        ("lost", Named::Other),
        ("lock~", Named::Other),
    ];
    for row in rows.iter() {
        same(&rt, read_name(row.0), row.1);
    }
    Ok(())
}

#[test]
fn names_are_written_as_they_are_read(rt: HostRuntime) -> Result<(), Fail> {
    let rows = [
        (Place::Segment(12), "000000000012.journal"),
        (Place::Snapshot(999_999_999_999), "999999999999.snapshot"),
        (Place::NewSnapshot, "snapshot.new"),
        (Place::NewSegment(3), "000000000003.journal.new"),
        (Place::Torn(12), "000000000012.torn"),
        (Place::NewTorn(12), "000000000012.torn.new"),
        (Place::Manifest, "manifest"),
        (Place::NewManifest, "manifest.new"),
        (Place::ManifestLock, "manifest.lock"),
        (Place::Lock, "lock"),
        (Place::CompactLock, "compact.lock"),
        (Place::ReadLock, "read.lock"),
        (Place::StartLock, "start.lock"),
    ];
    for row in rows.iter() {
        let place = row.0;
        let text = format!(in rt.alloc(); "{place}")?;
        same(&rt, text.as_str(), row.1);
    }
    Ok(())
}

#[test]
fn segments_after_the_snapshot_are_all_there(rt: HostRuntime) -> Result<(), Fail> {
    let found = arrange(rt.alloc(), &mut [3, 1, 2], &[])?;
    same(
        &rt,
        (found.snapshot, found.first, found.last),
        (None, 1, Some(3)),
    );
    holds(&rt, found.old.is_empty());
    let found = arrange(rt.alloc(), &mut [], &[])?;
    same(
        &rt,
        (found.snapshot, found.first, found.last),
        (None, 1, None),
    );
    let found = arrange(rt.alloc(), &mut [9, 8, 6, 7], &[3, 7])?;
    same(
        &rt,
        (found.snapshot, found.first, found.last),
        (Some(7), 8, Some(9)),
    );
    same(
        &rt,
        found.old.as_slice(),
        &[Place::Snapshot(3), Place::Segment(6), Place::Segment(7)][..],
    );
    Ok(())
}

#[test]
fn a_segment_that_is_missing_is_told(rt: HostRuntime) -> Result<(), Fail> {
    let mut none: [u64; 0] = [];
    let mut rows = [([1u64, 2, 4], 3u64), ([2, 3, 4], 1), ([1, 3, 4], 2)];
    for row in rows.iter_mut() {
        let missing = matches!(
            arrange(rt.alloc(), &mut row.0, &[]),
            Err(DiskFault::Missing(place)) if place == Place::Segment(row.1)
        );
        holds(&rt, missing);
    }
    let missing = matches!(
        arrange(rt.alloc(), &mut none, &[7]),
        Err(DiskFault::Missing(Place::Segment(8)))
    );
    holds(&rt, missing);
    Ok(())
}

#[test]
fn faults_tell_the_file(rt: HostRuntime) -> Result<(), Fail> {
    let reason = io::Error::from_raw_os_error(28);
    let fault = DiskFault::at(Place::Segment(3), reason);
    let text = format!(in rt.alloc(); "judyd: DIR{fault}")?;
    same(
        &rt,
        text.as_str(),
        "judyd: DIR/000000000003.journal: No space left on device (os error 28)",
    );
    let fault = DiskFault::at(Place::Folder, io::Error::from_raw_os_error(2));
    let text = format!(in rt.alloc(); "judyd: DIR{fault}")?;
    same(
        &rt,
        text.as_str(),
        "judyd: DIR: No such file or directory (os error 2)",
    );
    let fault = DiskFault::Missing(Place::Snapshot(2));
    let text = format!(in rt.alloc(); "judyd: DIR{fault}")?;
    same(
        &rt,
        text.as_str(),
        "judyd: DIR/000000000002.snapshot: missing",
    );
    let fault = DiskFault::Missing(Place::Segment(2));
    let text = format!(in rt.alloc(); "judyd: DIR{fault}")?;
    same(
        &rt,
        text.as_str(),
        "judyd: DIR/000000000002.journal: missing",
    );
    Ok(())
}

#[test]
fn a_manifest_is_read_as_it_is_written(rt: HostRuntime) -> Result<(), Fail> {
    let numbers = [
        0,
        1,
        9,
        10,
        4_294_967_296,
        999_999_999_999,
        u64::MAX - 1,
        u64::MAX,
    ];
    for snapshot in numbers.iter() {
        for last in numbers.iter() {
            let manifest = Manifest {
                snapshot: *snapshot,
                last: *last,
            };
            let text = manifest.text();
            same(&rt, Manifest::read(text.as_slice()), Some(manifest));
        }
    }
    let text = Manifest {
        snapshot: 7,
        last: 12,
    }
    .text();
    same(
        &rt,
        text.as_slice(),
        b"judyd manifest 1 7 12 58383fa994551182\n".as_slice(),
    );
    Ok(())
}

#[test]
fn a_manifest_of_another_text_is_none(rt: HostRuntime) -> Result<(), Fail> {
    let rows: [&[u8]; 8] = [
        b"",
        b"judyd manifest 1 ",
        b"judyd manifest 1 0 0 069024be57d16ba4",
        b"judyd manifest 1 0 0 069024be57d16ba4\n\n",
        b"judyd manifest 1 00 0 069024be57d16ba4\n",
        b"judyd manifest 2 0 0 069024be57d16ba4\n",
        b"judyd manifest 1 0 0 069024BE57D16BA4\n",
        b"judyd manifest 1 18446744073709551616 0 069024be57d16ba4\n",
    ];
    for row in rows.iter() {
        same(&rt, Manifest::read(row), None);
    }
    let text = b"judyd manifest 1 0 0 069024be57d16ba4\n";
    let none = Manifest {
        snapshot: 0,
        last: 0,
    };
    same(&rt, Manifest::read(text), Some(none));
    Ok(())
}

#[test]
fn what_a_manifest_lacks_is_told(rt: HostRuntime) -> Result<(), Fail> {
    let manifest = Manifest {
        snapshot: 4,
        last: 7,
    };
    let rows = [
        ((4, 7), None),
        ((4, 8), None),
        ((5, 7), None),
        ((9, 8), None),
        ((3, 7), Some(Lack::Snapshot(4))),
        ((0, 0), Some(Lack::Snapshot(4))),
        ((4, 6), Some(Lack::Segment(7))),
        ((4, 5), Some(Lack::Segment(6))),
        ((4, 0), Some(Lack::Segment(1))),
        ((4, 9), Some(Lack::Behind(7))),
        ((4, u64::MAX), Some(Lack::Behind(7))),
    ];
    for row in rows.iter() {
        let (snapshot, last) = row.0;
        same(&rt, manifest.lack(snapshot, last), row.1);
    }
    Ok(())
}
