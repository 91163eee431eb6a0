//! A run over three tenants and three segments, torn at each byte, and damaged in each way.

use crate::checks::{holds, same};
use arrayvec::ArrayVec;
use judy_journal::{
    Damage, LAST_SEGMENT, Position, Read, Recovery, SUM_LEN, Writer, read_record, snapshot_sum,
};
use std::process::Abort;

/// The room for the text of a run.
const ROOM: usize = 4096;

/// The records of a run.
const COUNT: usize = 102;

/// The checksum that the first segment continues from.
const ZEROS: [u8; SUM_LEN] = [b'0'; SUM_LEN];

/// The records of a run, over and over.
const RECORDS: [&[u8]; 3] = [
    b"alice 1S seats 12",
    b"bob LI ages 7 40",
    b"carol HI words x6162 1",
];

/// The text of three files, one after another, and where each of them begins.
#[derive(Drop)]
struct Files {
    text: ArrayVec<u8, ROOM>,
    starts: [usize; 3],
}

/// The bytes from one place to another.
fn part(text: &[u8], from: usize, to: usize) -> &[u8] {
    text.get(from..to).unwrap_or(&[])
}

/// Adds record number `i`.
fn add(writer: &mut Writer, i: usize) {
    if !writer.has_room() {
        return;
    }
    match i % 3 {
        0 => writer.add(b"alice", b"1S seats 12"),
        1 => writer.add(b"bob", b"LI ages 7 40"),
        _ => writer.add(b"carol", b"HI words x6162 1"),
    }
}

/// Puts the text that the writer made behind the others.
fn keep(files: &mut Files, writer: &Writer) {
    let _fits = files.text.try_extend_from_slice(writer.text());
}

/// Begins the file with this index.
fn begin(files: &mut Files, writer: &mut Writer, file: usize) {
    files.starts[file % 3] = files.text.len();
    if writer.is_empty() && writer.segment() < LAST_SEGMENT {
        writer.next_segment();
        keep(files, writer);
    }
}

/// Ends the commit.
fn commit(files: &mut Files, writer: &mut Writer) {
    if !writer.is_empty() {
        writer.end();
        keep(files, writer);
    }
}

/// Writes a run: 40 records to a file, 8 to a commit. `ends` gets, for each byte, how many records
/// end in whole commits before it.
fn write(ends: &mut [usize; ROOM]) -> Files {
    let mut files = Files {
        text: ArrayVec::new(),
        starts: [0; 3],
    };
    let mut writer = Writer::new(0, &ZEROS, 0);
    for i in 0..COUNT {
        if i % 40 == 0 {
            begin(&mut files, &mut writer, i / 40);
        }
        add(&mut writer, i);
        if i % 8 == 7 || i == COUNT - 1 {
            commit(&mut files, &mut writer);
            ends[files.text.len() % ROOM] = i + 1;
        }
    }
    files
}

/// What was found in the files: how many records of whole commits, whether each of them is the one
/// that was written, the damage and its place, and where a writer goes on.
#[derive(Clone, Copy)]
struct Found {
    records: usize,
    right: bool,
    damage: Option<Damage>,
    place: u64,
    position: Option<Position>,
}

/// Counts the records of a commit behind `found.records` others.
fn count(found: &mut Found, text: &[u8]) {
    for line in text.split(|b| *b == b'\n') {
        if line.is_empty() {
            continue;
        }
        if line != RECORDS[found.records % 3] {
            found.right = false;
        }
        found.records = found.records.saturating_add(1);
    }
}

/// Reads a piece. Returns whether the text is well so far.
fn read_piece(recovery: &mut Recovery, found: &mut Found, piece: &[u8]) -> bool {
    let mut rest = piece;
    while !rest.is_empty() {
        match recovery.read(rest) {
            Ok(Read::More) => return true,
            Ok(Read::Whole(left)) => {
                count(found, recovery.records());
                rest = rest.split_at(rest.len() - left).1;
            }
            Err(damage) => {
                found.damage = Some(damage);
                found.place = recovery.place();
                return false;
            }
        }
    }
    true
}

/// Recovers the files up to this byte of their text, in pieces of at most `step` bytes. The files
/// that begin after it are missing.
fn recover(text: &[u8], starts: &[usize; 3], at: usize, step: usize) -> Found {
    let mut found = Found {
        records: 0,
        right: true,
        damage: None,
        place: 0,
        position: None,
    };
    let mut recovery = Recovery::new(0, &ZEROS);
    for file in 0..3usize {
        let start = starts[file];
        if start > at {
            break;
        }
        if file > 0 {
            if let Err(damage) = recovery.next_file() {
                found.damage = Some(damage);
                found.place = recovery.place();
                return found;
            }
        }
        let end = if file < 2 {
            starts[file + 1].min(at)
        } else {
            at
        };
        for piece in part(text, start, end).chunks(step) {
            if !read_piece(&mut recovery, &mut found, piece) {
                return found;
            }
        }
    }
    found.position = Some(recovery.position());
    found
}

/// Whether a writer that goes on after what was found adds one record to it.
fn goes_on(files: &Files, found: &Found) -> bool {
    let Some(position) = found.position else {
        return false;
    };
    let mut writer = Writer::new(position.segment, &position.sum, position.size);
    let mut next = Files {
        text: ArrayVec::new(),
        starts: [ROOM; 3],
    };
    let last = (position.segment as usize).min(3);
    for file in 0..last {
        next.starts[file] = files.starts[file];
    }
    let mut whole = 0;
    if last > 0 {
        whole = files.starts[last - 1].saturating_add(position.size as usize);
    }
    let _fits = next
        .text
        .try_extend_from_slice(part(files.text.as_slice(), 0, whole));
    if last == 0 {
        begin(&mut next, &mut writer, 0);
    }
    add(&mut writer, found.records);
    commit(&mut next, &mut writer);
    let again = recover(next.text.as_slice(), &next.starts, next.text.len(), 500);
    again.right && again.damage.is_none() && again.records == found.records.saturating_add(1)
}

/// The front of a run, torn at each byte, gives the records of its whole commits and no others.
/// A writer goes on after them.
#[test]
fn torn_at_each_byte(rt: HostRuntime) {
    let mut ends = [0usize; ROOM];
    let files = write(&mut ends);
    let (mut records, mut commits) = (0usize, 0usize);
    for at in 0..files.text.len() {
        if ends[at % ROOM] > 0 {
            records = ends[at % ROOM];
            commits = commits.saturating_add(1);
        }
        let found = recover(files.text.as_slice(), &files.starts, at, 37);
        holds(&rt, found.right && found.damage.is_none());
        same(&rt, found.records, records);
        if at % 5 == 0 {
            holds(&rt, goes_on(&files, &found));
        }
    }
    same(&rt, commits, 12);
    let all = recover(files.text.as_slice(), &files.starts, files.text.len(), 1);
    same(&rt, all.records, COUNT);
}

/// Each byte of a run, turned into another one, is told as damage or cuts the run off there: a
/// record that was not written is never found.
#[test]
fn each_byte_turned(rt: HostRuntime) {
    let mut ends = [0usize; ROOM];
    let files = write(&mut ends);
    let len = files.text.len();
    let mut told = 0usize;
    for at in 0..len {
        let mut text = [0u8; ROOM];
        for (to, from) in text.iter_mut().zip(files.text.as_slice()) {
            *to = *from;
        }
        text[at % ROOM] ^= 1;
        let found = recover(&text, &files.starts, len, 4096);
        holds(&rt, found.right);
        holds(&rt, found.records < COUNT);
        if found.damage.is_some() {
            told = told.saturating_add(1);
        }
    }
    // The last commit is told as torn where its mark is no mark or no line any more: three bytes.
    same(&rt, told.saturating_add(3), len);
}

/// What is found without the bytes from one place to another, of the first file.
fn without(files: &Files, from: usize, to: usize) -> Found {
    let mut text = ArrayVec::<u8, ROOM>::new();
    let all = files.text.as_slice();
    let _front = text.try_extend_from_slice(part(all, 0, from));
    let _back = text.try_extend_from_slice(part(all, to, all.len()));
    let mut starts = files.starts;
    let gone = to.saturating_sub(from);
    starts[1] = starts[1].saturating_sub(gone);
    starts[2] = starts[2].saturating_sub(gone);
    recover(text.as_slice(), &starts, text.len(), 100)
}

/// A record, a commit or a file that was dropped is told, and at its place.
#[test]
fn dropped(rt: HostRuntime) {
    let mut ends = [0usize; ROOM];
    let files = write(&mut ends);
    let record = without(&files, 35, 53);
    holds(
        &rt,
        record.damage == Some(Damage::Mark) && record.records == 0,
    );
    let mut first = 0usize;
    for at in 0..ROOM {
        if ends[at] == 8 {
            first = at;
        }
    }
    same(&rt, record.place, (first as u64).saturating_sub(21 + 18));
    let commit = without(&files, 35, first);
    holds(
        &rt,
        commit.damage == Some(Damage::Mark) && commit.records == 0,
    );
    let end = without(&files, files.starts[1].saturating_sub(5), files.starts[1]);
    holds(&rt, end.damage == Some(Damage::Torn) && end.records == 32);
    let starts = [0, files.starts[1], ROOM];
    let gap = [0, files.starts[2], ROOM];
    let well = recover(files.text.as_slice(), &starts, files.starts[2], 100);
    holds(&rt, well.damage.is_none() && well.records == 80);
    let missing = recover(
        part(files.text.as_slice(), files.starts[1], files.text.len()),
        &gap,
        500,
        100,
    );
    holds(
        &rt,
        missing.damage == Some(Damage::Header) && missing.records == 0 && missing.place == 0,
    );
}

/// Reads a snapshot of segment 7. Returns how many records it has, if it is whole.
fn unpack(text: &[u8]) -> Option<usize> {
    let (line, rest) = text.split_at(text.len().min(35));
    let sum = snapshot_sum(line, 7)?;
    let mut recovery = Recovery::snapshot(7, &sum);
    let mut found = Found {
        records: 0,
        right: true,
        damage: None,
        place: 0,
        position: None,
    };
    if !read_piece(&mut recovery, &mut found, part(rest, 1, rest.len())) || !found.right {
        return None;
    }
    if recovery.end_snapshot().is_err() {
        return None;
    }
    Some(found.records)
}

/// A snapshot is read whole, and not without its end.
#[test]
fn snapshots(rt: HostRuntime) {
    let mut files = Files {
        text: ArrayVec::new(),
        starts: [0; 3],
    };
    let mut writer = Writer::new(7, &ZEROS, 0);
    writer.begin_snapshot();
    keep(&mut files, &writer);
    add(&mut writer, 0);
    add(&mut writer, 1);
    commit(&mut files, &mut writer);
    if writer.is_empty() {
        writer.end_snapshot();
        keep(&mut files, &writer);
    }
    let text = files.text.as_slice();
    holds(&rt, text.starts_with(b"judyd snapshot 1 7 0000000000"));
    same(&rt, unpack(text), Some(2));
    for at in 0..text.len() {
        same(&rt, unpack(part(text, 0, at)), None);
    }
}

/// The first lines of a journal are as the page says, and a record is taken apart.
#[test]
fn first_lines(rt: HostRuntime) {
    let mut files = Files {
        text: ArrayVec::new(),
        starts: [0; 3],
    };
    let mut writer = Writer::new(0, &ZEROS, 0);
    begin(&mut files, &mut writer, 0);
    add(&mut writer, 0);
    commit(&mut files, &mut writer);
    let text = files.text.as_slice();
    holds(&rt, text.starts_with(b"judyd journal 1 1 0000000000"));
    same(
        &rt,
        part(text, 35, 57),
        b"alice 1S seats 12\n# 1 ".as_slice(),
    );
    // As by Python: reduce(lambda h, b: (h * 1099511628211 + b) % 2**64, b"0" * 16 + line, 0)
    same(&rt, part(text, 57, 73), b"3a7dc39d97b681dd".as_slice());
    same(&rt, &writer.size(), &(text.len() as u64));
    let (tenant, request) = read_record(RECORDS[1]).unwrap_or((b"", b""));
    same(&rt, tenant, b"bob".as_slice());
    same(&rt, request, b"LI ages 7 40".as_slice());
    holds(&rt, read_record(b"bob").is_none());
}
